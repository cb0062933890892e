//! The record reader in plain Rust, written from the documentation alone. It has the same transcript as the proved reader and
//! serves as its yardstick, for answers as well as for speed.

const RECORD_LIMIT: usize = 65_536;
const PLATE_SLOTS: usize = 24;
const ROW_SLOTS: usize = 64;
const LOWEST_LEVEL: u16 = 4_096;
const FORCE_LIMIT: u64 = 1 << 36;
const SIXTEENTHS_LIMIT: u32 = 2_097_152;
const LINE_LIMIT: usize = 64;

/// Appends the transcript of a record.
pub fn transcript(record: &[u8], out: &mut Vec<u8>) {
    if record.len() > RECORD_LIMIT {
        return write_fault(0, Refusal::TooLong, out);
    }
    let mut sheet = Sheet::new();
    let mut rest = record;
    while !rest.is_empty() {
        let place = record.len() - rest.len();
        let done = match Command::read(rest) {
            Ok((command, behind)) => {
                rest = behind;
                run(command, &mut sheet, out)
            }
            Err(refusal) => {
                rest = &[];
                Err(refusal)
            }
        };
        if let Err(refusal) = done {
            write_fault(place, refusal, out);
        }
    }
}

fn run(command: Command, sheet: &mut Sheet, out: &mut Vec<u8>) -> Result<(), Refusal> {
    match command {
        Command::Place { slot, plate } => sheet.place(slot, plate),
        Command::Lift { slot } => sheet.lift(slot),
        Command::Lower { levels } => sheet.lower(levels),
        Command::Enter { slot, load, effect, sixteenths } => {
            let load = LoadType::of_code(load)?;
            let kind = EffectKind::of_code(effect)?;
            sheet.enter(slot, Row { load, kind, sixteenths })
        }
        Command::Strike { slot } => sheet.strike(slot),
        Command::Extremes { state, effect } => {
            let kind = EffectKind::of_code(effect)?;
            let extremes = sheet.extremes(published(state)?, kind);
            write_extremes(&extremes, out);
            Ok(())
        }
        Command::Bending { state, slab } => {
            let bending = bending(sheet, &slab.block()?)?;
            let verdict = bending.verdict(&sheet.extremes(published(state)?, EffectKind::Moment));
            write_bending(&bending, verdict, out);
            Ok(())
        }
        Command::Shear { state, spacing } => {
            let resistance = shear_resistance(sheet, spacing)?;
            let verdict = shear_verdict(resistance, &sheet.extremes(published(state)?, EffectKind::Shear));
            write_shear(resistance, verdict, out);
            Ok(())
        }
    }
}

// Refusals

#[derive(Clone, Copy)]
enum Refusal {
    NoSlot = 1,
    SlotFull = 2,
    SlotEmpty = 3,
    PlateLimits = 4,
    RoleStands = 5,
    TooStrong = 6,
    OutOfRange = 7,
    TooLow = 9,
    SlabLimits = 10,
    NoMoment = 11,
    PlateMissing = 12,
    SpacingLimits = 13,
    UnknownState = 15,
    UnknownCommand = 16,
    CutShort = 17,
    UnknownCode = 19,
    TooLong = 20,
}

impl Refusal {
    fn layer(self) -> &'static [u8] {
        use Refusal::*;
        match self {
            OutOfRange => b"value",
            NoSlot | SlotFull | SlotEmpty | PlateLimits | RoleStands | TooStrong | TooLow => b"sheet",
            SlabLimits => b"part",
            NoMoment | PlateMissing | SpacingLimits | UnknownState => b"question",
            UnknownCommand | CutShort | UnknownCode | TooLong => b"record",
        }
    }
}

// Commands

enum Command {
    Place { slot: u8, plate: PlateInput },
    Lift { slot: u8 },
    Lower { levels: u16 },
    Enter { slot: u8, load: u8, effect: u8, sixteenths: i32 },
    Strike { slot: u8 },
    Extremes { state: u8, effect: u8 },
    Bending { state: u8, slab: Slab },
    Shear { state: u8, spacing: u16 },
}

impl Command {
    /// The command at the front, and the bytes behind it.
    fn read(bytes: &[u8]) -> Result<(Command, &[u8]), Refusal> {
        let wide = |high, low| u16::from_be_bytes([high, low]);
        Ok(match *bytes {
            [1, slot, role, t1, t0, b1, b0, h1, h0, y3, y2, y1, y0, ref rest @ ..] => {
                let plate = PlateInput {
                    role,
                    top: wide(t1, t0),
                    breadth: wide(b1, b0),
                    height: wide(h1, h0),
                    fy: u32::from_be_bytes([y3, y2, y1, y0]),
                };
                (Command::Place { slot, plate }, rest)
            }
            [2, slot, ref rest @ ..] => (Command::Lift { slot }, rest),
            [3, n1, n0, ref rest @ ..] => (Command::Lower { levels: wide(n1, n0) }, rest),
            [4, slot, load, effect, v3, v2, v1, v0, ref rest @ ..] => {
                let sixteenths = i32::from_be_bytes([v3, v2, v1, v0]);
                (Command::Enter { slot, load, effect, sixteenths }, rest)
            }
            [5, slot, ref rest @ ..] => (Command::Strike { slot }, rest),
            [6, state, effect, ref rest @ ..] => (Command::Extremes { state, effect }, rest),
            [7, state, t1, t0, b1, b0, h1, h0, f1, f0, ref rest @ ..] => {
                let slab = Slab { top: wide(t1, t0), breadth: wide(b1, b0), height: wide(h1, h0), fc: wide(f1, f0) };
                (Command::Bending { state, slab }, rest)
            }
            [8, state, d1, d0, ref rest @ ..] => (Command::Shear { state, spacing: wide(d1, d0) }, rest),
            [1..=8, ..] | [] => return Err(Refusal::CutShort),
            _ => return Err(Refusal::UnknownCommand),
        })
    }
}

// Plates

#[derive(Clone, Copy, PartialEq)]
enum Role {
    TopFlange,
    Web,
    BottomFlange,
    Other,
}

/// A plate as a record hands it over, not yet judged.
struct PlateInput {
    role: u8,
    top: u16,
    breadth: u16,
    height: u16,
    fy: u32,
}

impl PlateInput {
    /// The role, where the plate is within its limits.
    fn role(&self) -> Result<Role, Refusal> {
        let role = match self.role {
            1 => Role::TopFlange,
            2 => Role::Web,
            3 => Role::BottomFlange,
            4 => Role::Other,
            _ => return Err(Refusal::PlateLimits),
        };
        let widest = if role == Role::Web { 64 } else { LOWEST_LEVEL };
        let lawful = (1..=widest).contains(&self.breadth)
            && self.height >= 1
            && u32::from(self.top) + u32::from(self.height) <= u32::from(LOWEST_LEVEL)
            && (30_000..=100_000).contains(&self.fy);
        if lawful { Ok(role) } else { Err(Refusal::PlateLimits) }
    }
}

/// What the questions ask of a standing plate besides its strips.
#[derive(Clone, Copy)]
struct Plate {
    role: Role,
    breadth: u16,
    fy: u32,
}

/// A flange or the web, as a question reads it.
struct Piece {
    top: u16,
    breadth: u16,
    height: u16,
    fy: u32,
}

/// The same force in each strip of a run.
struct Block {
    top: u16,
    height: u16,
    strength: u32,
}

impl Block {
    fn foot(&self) -> u16 {
        self.top + self.height
    }

    fn force_above(&self, level: u16) -> u64 {
        let strips = level.saturating_sub(self.top).min(self.height);
        u64::from(self.strength) * u64::from(strips)
    }

    fn moment_above(&self, level: u16) -> u64 {
        self.moment(level.saturating_sub(self.top), level.saturating_sub(self.foot()))
    }

    fn moment_below(&self, level: u16) -> u64 {
        self.moment(self.foot().saturating_sub(level), self.top.saturating_sub(level))
    }

    /// Of the strips from `near` to `far` levels away on one side: the odd numbers between add up to the squares' difference.
    fn moment(&self, far: u16, near: u16) -> u64 {
        let odd_sum = u32::from(far).pow(2) - u32::from(near).pow(2);
        u64::from(self.strength) * u64::from(odd_sum)
    }
}

/// The standing plates' blocks, a column each, so that the loops over them run in vectors. An empty slot is all zeros.
struct Blocks {
    tops: [u16; PLATE_SLOTS],
    heights: [u16; PLATE_SLOTS],
    strengths: [u32; PLATE_SLOTS],
}

impl Blocks {
    const EMPTY: Blocks = Blocks { tops: [0; PLATE_SLOTS], heights: [0; PLATE_SLOTS], strengths: [0; PLATE_SLOTS] };

    fn get(&self, slot: usize) -> Block {
        Block { top: self.tops[slot], height: self.heights[slot], strength: self.strengths[slot] }
    }

    fn set(&mut self, slot: usize, block: Block) {
        self.tops[slot] = block.top;
        self.heights[slot] = block.height;
        self.strengths[slot] = block.strength;
    }

    fn iter(&self) -> impl Iterator<Item = Block> + '_ {
        (0..PLATE_SLOTS).map(|slot| self.get(slot))
    }

    fn depth(&self) -> u16 {
        self.iter().map(|block| block.foot()).max().unwrap_or(0)
    }

    fn force_above(&self, level: u16) -> u64 {
        self.iter().map(|block| block.force_above(level)).sum()
    }

    fn moment(&self, level: u16) -> u64 {
        self.iter().map(|block| block.moment_above(level) + block.moment_below(level)).sum()
    }

    fn lower(&mut self, levels: u16) {
        for (top, &height) in self.tops.iter_mut().zip(&self.heights) {
            *top += if height == 0 { 0 } else { levels };
        }
    }
}

// Load effects

#[derive(Clone, Copy)]
enum LoadType {
    Dc,
    Dw,
    Ll,
    Ws,
}

impl LoadType {
    fn of_code(code: u8) -> Result<LoadType, Refusal> {
        match code {
            1 => Ok(LoadType::Dc),
            2 => Ok(LoadType::Dw),
            3 => Ok(LoadType::Ll),
            4 => Ok(LoadType::Ws),
            _ => Err(Refusal::UnknownCode),
        }
    }
}

#[derive(Clone, Copy)]
enum EffectKind {
    Moment,
    Shear,
}

impl EffectKind {
    fn of_code(code: u8) -> Result<EffectKind, Refusal> {
        match code {
            1 => Ok(EffectKind::Moment),
            2 => Ok(EffectKind::Shear),
            _ => Err(Refusal::UnknownCode),
        }
    }
}

#[derive(Clone, Copy)]
struct Row {
    load: LoadType,
    kind: EffectKind,
    sixteenths: i32,
}

/// A load type's least and greatest factor, in hundredths.
struct Factors {
    low: i64,
    high: i64,
}

/// Factors in the order DC, DW, LL, WS.
type LimitState = [Factors; 4];

const fn state(dc: (i64, i64), dw: (i64, i64), ll: i64, ws: i64) -> LimitState {
    [
        Factors { low: dc.0, high: dc.1 },
        Factors { low: dw.0, high: dw.1 },
        Factors { low: 0, high: ll },
        Factors { low: 0, high: ws },
    ]
}

static PUBLISHED: [LimitState; 9] = [
    state((90, 125), (65, 150), 175, 0),
    state((90, 125), (65, 150), 135, 0),
    state((90, 125), (65, 150), 0, 140),
    state((90, 150), (65, 150), 0, 0),
    state((90, 125), (65, 150), 135, 40),
    state((100, 100), (100, 100), 100, 30),
    state((100, 100), (100, 100), 130, 0),
    state((0, 0), (0, 0), 150, 0),
    state((0, 0), (0, 0), 75, 0),
];

fn published(number: u8) -> Result<&'static LimitState, Refusal> {
    let row = usize::from(number).wrapping_sub(1);
    PUBLISHED.get(row).ok_or(Refusal::UnknownState)
}

/// Least and greatest factored sum, in hundredths of a sixteenth.
struct Extremes {
    low: i64,
    high: i64,
}

// The sheet

struct Sheet {
    plates: [Option<Plate>; PLATE_SLOTS],
    blocks: Blocks,
    /// The slots of the top flange, the web and the bottom flange. `Role::Other` has no place here and may stand often.
    pieces: [Option<usize>; 3],
    /// Of all plates.
    force: u64,
    depth: u16,
    rows: [Option<Row>; ROW_SLOTS],
    /// Sums of the rows by kind and load type: every question about effects needs only these.
    sums: [[i64; 4]; 2],
}

impl Sheet {
    fn new() -> Sheet {
        Sheet {
            plates: [None; PLATE_SLOTS],
            blocks: Blocks::EMPTY,
            pieces: [None; 3],
            force: 0,
            depth: 0,
            rows: [None; ROW_SLOTS],
            sums: [[0; 4]; 2],
        }
    }

    fn place(&mut self, slot: u8, input: PlateInput) -> Result<(), Refusal> {
        let index = usize::from(slot);
        let place = self.plates.get_mut(index).ok_or(Refusal::NoSlot)?;
        if place.is_some() {
            return Err(Refusal::SlotFull);
        }
        let role = input.role()?;
        let strength = u32::from(input.breadth) * input.fy;
        let force = self.force + u64::from(strength) * u64::from(input.height);
        let piece = self.pieces.get_mut(role as usize);
        if matches!(piece, Some(Some(_))) {
            return Err(Refusal::RoleStands);
        }
        if force > FORCE_LIMIT {
            return Err(Refusal::TooStrong);
        }
        *place = Some(Plate { role, breadth: input.breadth, fy: input.fy });
        let block = Block { top: input.top, height: input.height, strength };
        self.depth = self.depth.max(block.foot());
        self.blocks.set(index, block);
        self.force = force;
        if let Some(piece) = piece {
            *piece = Some(index);
        }
        Ok(())
    }

    fn lift(&mut self, slot: u8) -> Result<(), Refusal> {
        let index = usize::from(slot);
        let place = self.plates.get_mut(index).ok_or(Refusal::NoSlot)?;
        let plate = place.take().ok_or(Refusal::SlotEmpty)?;
        let block = self.blocks.get(index);
        self.force -= block.force_above(LOWEST_LEVEL);
        self.blocks.set(index, Block { top: 0, height: 0, strength: 0 });
        if block.foot() == self.depth {
            self.depth = self.blocks.depth();
        }
        if let Some(piece) = self.pieces.get_mut(plate.role as usize) {
            *piece = None;
        }
        Ok(())
    }

    fn lower(&mut self, levels: u16) -> Result<(), Refusal> {
        if self.depth == 0 {
            // No plate stands, so none would pass the lowest level.
            return Ok(());
        }
        if levels > LOWEST_LEVEL - self.depth {
            return Err(Refusal::TooLow);
        }
        self.depth += levels;
        self.blocks.lower(levels);
        Ok(())
    }

    fn enter(&mut self, slot: u8, row: Row) -> Result<(), Refusal> {
        let place = self.rows.get_mut(usize::from(slot)).ok_or(Refusal::NoSlot)?;
        if place.is_some() {
            return Err(Refusal::SlotFull);
        }
        if row.sixteenths.unsigned_abs() > SIXTEENTHS_LIMIT {
            return Err(Refusal::OutOfRange);
        }
        *place = Some(row);
        self.sums[row.kind as usize][row.load as usize] += i64::from(row.sixteenths);
        Ok(())
    }

    fn strike(&mut self, slot: u8) -> Result<(), Refusal> {
        let place = self.rows.get_mut(usize::from(slot)).ok_or(Refusal::NoSlot)?;
        let row = place.take().ok_or(Refusal::SlotEmpty)?;
        self.sums[row.kind as usize][row.load as usize] -= i64::from(row.sixteenths);
        Ok(())
    }

    fn extremes(&self, state: &LimitState, kind: EffectKind) -> Extremes {
        let mut extremes = Extremes { low: 0, high: 0 };
        for (factors, &sum) in state.iter().zip(&self.sums[kind as usize]) {
            let (at_low, at_high) = (factors.low * sum, factors.high * sum);
            extremes.low += at_low.min(at_high);
            extremes.high += at_low.max(at_high);
        }
        extremes
    }

    fn piece(&self, role: Role) -> Result<Piece, Refusal> {
        let slot = self.pieces[role as usize].ok_or(Refusal::PlateMissing)?;
        let plate = self.plates[slot].ok_or(Refusal::PlateMissing)?;
        let block = self.blocks.get(slot);
        Ok(Piece { top: block.top, breadth: plate.breadth, height: block.height, fy: plate.fy })
    }
}

// Bending

#[derive(Clone, Copy)]
enum Verdict {
    Carries = 0,
    NotCompact = 1,
    Brittle = 2,
    TooWeak = 3,
}

struct Slab {
    top: u16,
    breadth: u16,
    height: u16,
    fc: u16,
}

impl Slab {
    /// The slab's strips in compression, where it is within its limits.
    fn block(&self) -> Result<Block, Refusal> {
        let lawful = (1..=LOWEST_LEVEL).contains(&self.breadth)
            && self.height >= 1
            && u32::from(self.top) + u32::from(self.height) <= u32::from(LOWEST_LEVEL)
            && (2_000..=10_000).contains(&self.fc)
            && self.fc.is_multiple_of(20);
        if !lawful {
            return Err(Refusal::SlabLimits);
        }
        let strength = u32::from(self.breadth) * 17 * u32::from(self.fc / 20);
        if u64::from(strength) * u64::from(self.height) > FORCE_LIMIT {
            return Err(Refusal::SlabLimits);
        }
        Ok(Block { top: self.top, height: self.height, strength })
    }
}

struct Bending {
    level: u16,
    mp: u64,
    mn: u64,
    compact: bool,
    ductile: bool,
}

impl Bending {
    fn verdict(&self, moments: &Extremes) -> Verdict {
        if !self.compact {
            Verdict::NotCompact
        } else if !self.ductile {
            Verdict::Brittle
        } else if moments.high * 750 > 100 * self.mn as i64 {
            Verdict::TooWeak
        } else {
            Verdict::Carries
        }
    }
}

fn bending(sheet: &Sheet, slab: &Block) -> Result<Bending, Refusal> {
    if sheet.force == 0 {
        // The slab only pushes: about level 0 nothing has a moment.
        return Err(Refusal::NoMoment);
    }
    let top_flange = sheet.piece(Role::TopFlange)?;
    let web = sheet.piece(Role::Web)?;
    let bottom_flange = sheet.piece(Role::BottomFlange)?;

    let level = plastic_axis(sheet, slab);
    let mp = (sheet.blocks.moment(level) + slab.moment_above(level)) / 8_192;
    let dp = u64::from(level);
    let dt = u64::from(sheet.depth.max(slab.foot()));
    let mn = if 10 * dp <= dt { mp } else { mp * (107 * dt - 70 * dp) / (100 * dt) };
    Ok(Bending {
        level,
        mp,
        mn,
        compact: top_flange.fy <= 70_000 && bottom_flange.fy <= 70_000 && is_stocky(&web, level, top_flange.fy),
        ductile: 100 * dp <= 42 * dt,
    })
}

/// Whether the web is within both slenderness limits of a compact section.
fn is_stocky(web: &Piece, level: u16, top_flange_fy: u32) -> bool {
    let tw = u64::from(web.breadth);
    let dcp = u64::from(level.saturating_sub(web.top).min(web.height));
    u64::from(web.height) <= 150 * tw && 4 * dcp * dcp * u64::from(top_flange_fy) <= 409_990_400 * tw * tw
}

/// The first level with the smallest plastic moment in sagging.
fn plastic_axis(sheet: &Sheet, slab: &Block) -> u16 {
    let plates = sheet.force as i64;
    // Push above less pull below. Twice the plates above, less all plates, is the plates' share; the slab never pulls.
    let imbalance = |level| (2 * sheet.blocks.force_above(level) + slab.force_above(level)) as i64 - plates;
    // The imbalance never falls. So halve the levels down to the first at which it is not short of push; at the plates' foot
    // it is not. What it is there, and one level above, comes out of the halving.
    let (mut first, mut last) = (0, sheet.depth);
    let mut short = None;
    let mut balance = plates + slab.force_above(last) as i64;
    while first < last {
        let middle = (first + last) / 2;
        let found = imbalance(middle);
        if found < 0 {
            short = Some(found);
            first = middle + 1;
        } else {
            balance = found;
            last = middle;
        }
    }
    // From one level to the next the moment changes by the sum of both imbalances.
    if short.is_some_and(|short| short + balance >= 0) { first - 1 } else { first }
}

// Shear

/// V of the web in force units. A spacing of 0 stands for no stiffeners.
fn shear_resistance(sheet: &Sheet, spacing: u16) -> Result<u64, Refusal> {
    let web = sheet.piece(Role::Web)?;
    let (d, tw, fy) = (u64::from(web.height), u64::from(web.breadth), u64::from(web.fy));
    let k = buckling_coefficient(d, u64::from(spacing))?;
    let slenderness = d * d * fy;
    Ok(if slenderness <= 363_776 * k * tw * tw {
        58 * fy * d * tw / 100
    } else if slenderness <= 568_400 * k * tw * tw {
        6_496 * tw * tw * (29_000_000 * k * fy).isqrt() / 100_000
    } else {
        264_074 * k * tw * tw * tw / d
    })
}

/// k in hundredths.
fn buckling_coefficient(height: u64, spacing: u64) -> Result<u64, Refusal> {
    if spacing == 0 {
        Ok(500)
    } else if 4 * spacing < height || spacing > 3 * height {
        Err(Refusal::SpacingLimits)
    } else {
        Ok(500 + 500 * height * height / (spacing * spacing))
    }
}

fn shear_verdict(resistance: u64, shears: &Extremes) -> Verdict {
    let largest = shears.low.abs().max(shears.high.abs());
    if largest * 16_000 > 100 * resistance as i64 { Verdict::TooWeak } else { Verdict::Carries }
}

// Lines

fn write_fault(place: usize, refusal: Refusal, out: &mut Vec<u8>) {
    append(out, |line| {
        line.word(b"fault at ");
        line.number(place as u64);
        line.word(b" ");
        line.word(refusal.layer());
        line.word(b" ");
        line.number(refusal as u64);
    });
}

fn write_extremes(extremes: &Extremes, out: &mut Vec<u8>) {
    append(out, |line| {
        line.word(b"6 low ");
        line.signed(extremes.low);
        line.word(b" high ");
        line.signed(extremes.high);
    });
}

fn write_bending(bending: &Bending, verdict: Verdict, out: &mut Vec<u8>) {
    append(out, |line| {
        line.word(b"7 level ");
        line.number(u64::from(bending.level));
        line.word(b" moment ");
        line.number(bending.mp);
        line.word(b" mn ");
        line.number(bending.mn);
        line.word(b" verdict ");
        line.number(verdict as u64);
    });
}

fn write_shear(resistance: u64, verdict: Verdict, out: &mut Vec<u8>) {
    append(out, |line| {
        line.word(b"8 shear ");
        line.number(resistance);
        line.word(b" verdict ");
        line.number(verdict as u64);
    });
}

/// Appends a line, with room for the longest made beforehand, so that its words go straight to their place.
fn append(out: &mut Vec<u8>, write: impl FnOnce(&mut Line)) {
    let start = out.len();
    out.resize(start + LINE_LIMIT, 0);
    let mut line = Line { bytes: &mut out[start..], length: 0 };
    write(&mut line);
    line.word(b"\n");
    let end = start + line.length;
    out.truncate(end);
}

struct Line<'a> {
    bytes: &'a mut [u8],
    length: usize,
}

impl Line<'_> {
    #[inline(always)]
    fn word(&mut self, word: &[u8]) {
        let end = self.length + word.len();
        self.bytes[self.length..end].copy_from_slice(word);
        self.length = end;
    }

    fn signed(&mut self, number: i64) {
        if number < 0 {
            self.word(b"-");
        }
        self.number(number.unsigned_abs());
    }

    fn number(&mut self, mut number: u64) {
        let end = self.length + number.checked_ilog10().map_or(1, |log| log as usize + 1);
        // From the last digit on, in pairs: half the divisions.
        let mut pairs = self.bytes[self.length..end].rchunks_exact_mut(2);
        for pair in &mut pairs {
            pair.copy_from_slice(&PAIRS[(number % 100) as usize]);
            number /= 100;
        }
        if let [first] = pairs.into_remainder() {
            *first = b'0' + number as u8;
        }
        self.length = end;
    }
}

/// The numbers 00 to 99, two digits each.
static PAIRS: [[u8; 2]; 100] = {
    let mut pairs = [[0; 2]; 100];
    let mut number = 0;
    while number < 100 {
        pairs[number] = [b'0' + (number / 10) as u8, b'0' + (number % 10) as u8];
        number += 1;
    }
    pairs
};

#[cfg(test)]
mod tests {
    use super::transcript;

    fn lines(record: &[u8]) -> String {
        let mut out = Vec::new();
        transcript(record, &mut out);
        String::from_utf8(out).unwrap()
    }

    /// The bytes of hex text with `#` comments, as in `examples/*.hex`.
    fn bytes(hex: &str) -> Vec<u8> {
        let digits: Vec<u8> = hex
            .lines()
            .flat_map(|line| line.split('#').next().unwrap().chars())
            .filter_map(|digit| digit.to_digit(16))
            .map(|digit| digit as u8)
            .collect();
        digits.chunks(2).map(|pair| pair[0] << 4 | pair[1]).collect()
    }

    const GIRDER: &str = "
        01 00 01 00 80 00 C0 00 10 00 00 C3 50
        01 01 02 00 90 00 08 02 80 00 00 C3 50
        01 02 03 03 10 01 00 00 18 00 00 C3 50";

    fn girder_and(hex: &str) -> String {
        lines(&bytes(&format!("{GIRDER}\n{hex}")))
    }

    #[test]
    fn girder_example() {
        let record = include_bytes!("../../examples/girder.bin");
        assert_eq!(bytes(include_str!("../../examples/girder.hex")), record);
        assert_eq!(
            lines(record),
            "6 low 1648000 high 6680000\n\
             6 low 198800 high 748000\n\
             7 level 131 moment 81830493 mn 78271676 verdict 0\n\
             8 shear 105629600 verdict 3\n\
             8 shear 134517438 verdict 0\n"
        );
    }

    #[test]
    fn load_effects_example() {
        let record = include_bytes!("../../examples/load-effects.bin");
        assert_eq!(bytes(include_str!("../../examples/load-effects.hex")), record);
        assert_eq!(lines(record), "6 low -120000 high -86400\nfault at 19 sheet 3\n");
    }

    #[test]
    fn refused_load_effects() {
        let record = bytes(
            "04 00 01 01 00 00 06 40  04 00 03 01 00 00 00 10  04 01 03 01 FF FF FF F0  06 01 01  06 01 02  05 00  05 00
             06 00 01  04 02 07 01 00 00 00 01  04 02 01 01 00 20 00 01  09  05 01",
        );
        assert_eq!(
            lines(&record),
            "fault at 8 sheet 2\n6 low 141200 high 200000\n6 low 0 high 0\nfault at 32 sheet 3\nfault at 34 question 15\n\
             fault at 37 record 19\nfault at 45 value 7\nfault at 53 record 16\n"
        );
    }

    #[test]
    fn small_girder() {
        let record = bytes(
            "01 00 01 00 04 00 10 00 01 00 00 75 30  01 01 02 00 05 00 01 00 08 00 00 75 30
             01 02 03 00 0D 00 10 00 01 00 00 75 30  04 00 01 01 00 00 00 01  06 01 01  07 01 00 00 00 28 00 04 07 D0
             08 01 00 00  04 01 01 01 00 00 00 01  07 01 00 00 00 28 00 04 07 D0  08 01 00 01  07 00 00 00 00 28 00 04 07 D1
             03 0F F3  02 01  07 00 00 00 00 28 00 04 07 D0",
        );
        assert_eq!(
            lines(&record),
            "6 low 90 high 125\n7 level 5 moment 1488 mn 1220 verdict 0\n8 shear 139200 verdict 0\n\
             7 level 5 moment 1488 mn 1220 verdict 3\nfault at 82 question 13\nfault at 86 part 10\nfault at 96 sheet 9\n\
             fault at 101 question 12\n"
        );
    }

    /// The girder carries 10,436,223 and not 10,436,224. In Strength V, with 125 for DC and 40 for WS, the closest extremes are
    /// 125 × 83,484 + 40 × 18 = 10,436,220 and 125 × 83,485 + 40 × 15 = 10,436,225.
    #[test]
    fn bending_at_its_limit() {
        let bending = "07 05 00 00 06 00 00 80 0F A0";
        let at = "04 00 01 01 00 01 46 1C  04 01 04 01 00 00 00 12";
        let past = "04 00 01 01 00 01 46 1D  04 01 04 01 00 00 00 0F";
        let line = "7 level 131 moment 81830493 mn 78271676 verdict";
        assert_eq!(girder_and(&format!("{at} {bending}")), format!("{line} 0\n"));
        assert_eq!(girder_and(&format!("{past} {bending}")), format!("{line} 3\n"));
    }

    #[test]
    fn spacings_at_their_limits() {
        assert_eq!(girder_and("08 01 00 9F  08 01 07 81"), "fault at 39 question 13\nfault at 43 question 13\n");
        assert_eq!(girder_and("08 01 00 A0  08 01 07 80").lines().filter(|line| line.starts_with("8 shear")).count(), 2);
    }

    #[test]
    fn strongest_plate() {
        assert_eq!(lines(&bytes("01 00 04 00 00 10 00 00 A7 00 01 86 A0")), "");
        assert_eq!(lines(&bytes("01 00 04 00 00 10 00 00 A8 00 01 86 A0")), "fault at 0 sheet 6\n");
    }

    #[test]
    fn lowering_no_plate() {
        assert_eq!(lines(&bytes("03 FF FF")), "");
    }

    #[test]
    fn whole_records() {
        assert_eq!(lines(&[]), "");
        assert_eq!(lines(&[5; 65_537]), "fault at 0 record 20\n");
        assert!(lines(&[5; 65_536]).ends_with("fault at 65534 sheet 3\n"));
    }

    #[test]
    fn cut_and_unknown() {
        for command in 1..=8 {
            assert_eq!(lines(&[command]), "fault at 0 record 17\n");
        }
        assert_eq!(lines(&[0]), "fault at 0 record 16\n");
        assert_eq!(lines(&[9]), "fault at 0 record 16\n");
    }
}
