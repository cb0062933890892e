//! Random records. Each follows from a seed and a number alone, so that one that shows a difference can be made again.

use crate::twin;

const PLATE_SLOTS: u8 = 24;
const ROW_SLOTS: u8 = 64;
const RECORD_LIMIT: usize = 65_536;
const ROW_LIMIT: i64 = 2_097_152;

/// Yields at their limits, at the limit of compact flanges, and common ones.
const YIELDS: [u32; 14] =
    [0, 29_999, 30_000, 30_001, 32_768, 36_000, 50_000, 50_000, 69_999, 70_000, 70_001, 100_000, 100_001, u32::MAX];
const MEASURES: [u16; 16] = [0, 1, 2, 16, 63, 64, 65, 128, 640, 2_048, 4_094, 4_095, 4_096, 4_097, 32_768, u16::MAX];
const STRENGTHS: [u16; 14] = [0, 20, 1_980, 1_999, 2_000, 2_001, 2_020, 4_000, 4_010, 9_980, 9_999, 10_000, 10_020, u16::MAX];
const SIXTEENTHS: [i32; 14] = [
    0,
    1,
    -1,
    1_600,
    -2_560,
    2_097_151,
    2_097_152,
    2_097_153,
    -2_097_151,
    -2_097_152,
    -2_097_153,
    i32::MAX,
    i32::MIN,
    i32::MIN + 1,
];
const PLATE_SLOT_EDGES: [u8; 7] = [0, 1, 22, 23, 24, 25, 255];
const ROW_SLOT_EDGES: [u8; 7] = [0, 1, 62, 63, 64, 65, 255];
/// Height over breadth, and yield, of unstiffened webs just between two cases of shear: yielding and inelastic buckling, then
/// inelastic and elastic.
const SHEAR_LIMITS: [(u16, u32); 4] = [(56, 58_000), (70, 37_120), (70, 58_000), (56, 90_625)];
/// Height over breadth of a balanced web, and yield of its flange, at the limit of compact sections.
const COMPACT_LIMITS: [(u16, u32); 2] = [(94, 46_400), (80, 64_061)];
const CODES: [u8; 9] = [0, 1, 2, 3, 4, 5, 9, 10, 255];

/// The record of a seed and a number.
pub fn record(seed: u64, number: u64) -> Vec<u8> {
    let mut draft = Draft::new(Random::new(seed, number));
    match draft.random.below(100) {
        0 => {}
        1..=4 => draft.noise(),
        5..=34 => draft.girder_and_commands(),
        35..=49 => draft.stack(),
        50..=59 => draft.heavy(),
        60..=69 => draft.rows(),
        70..=81 => draft.edges(),
        82..=91 => draft.at_limit(),
        92..=96 => draft.balanced(),
        _ => draft.mingled(),
    }
    if draft.random.one_in(1_000) {
        draft.lengthen();
    }
    draft.spoil();
    draft.bytes
}

/// Splitmix64.
pub struct Random(u64);

impl Random {
    pub fn new(seed: u64, number: u64) -> Random {
        let mut random = Random(seed);
        random.0 = random.next() ^ number.wrapping_mul(0xD134_2543_DE82_EF95);
        random.next();
        random
    }

    fn next(&mut self) -> u64 {
        self.0 = self.0.wrapping_add(0x9E37_79B9_7F4A_7C15);
        let mut mixed = self.0;
        mixed = (mixed ^ (mixed >> 30)).wrapping_mul(0xBF58_476D_1CE4_E5B9);
        mixed = (mixed ^ (mixed >> 27)).wrapping_mul(0x94D0_49BB_1331_11EB);
        mixed ^ (mixed >> 31)
    }

    pub fn below(&mut self, bound: u64) -> u64 {
        ((u128::from(self.next()) * u128::from(bound)) >> 64) as u64
    }

    pub fn one_in(&mut self, bound: u64) -> bool {
        self.below(bound) == 0
    }

    fn pick<T: Copy>(&mut self, values: &[T]) -> T {
        values[self.below(values.len() as u64) as usize]
    }

    /// From `low` to `high`, both included.
    fn within(&mut self, low: u16, high: u16) -> u16 {
        low + self.below(u64::from(high - low) + 1) as u16
    }
}

/// A slab as bending questions give it.
#[derive(Clone, Copy)]
struct Slab {
    top: u16,
    breadth: u16,
    height: u16,
    fc: u16,
}

/// A record in the making, with a rough memory of which slots are full: what the reader refused counts as done.
pub struct Draft {
    random: Random,
    pub bytes: Vec<u8>,
    plates: [bool; PLATE_SLOTS as usize],
    rows: [bool; ROW_SLOTS as usize],
    slab: Slab,
}

impl Draft {
    pub fn new(random: Random) -> Draft {
        Draft {
            random,
            bytes: Vec::new(),
            plates: [false; PLATE_SLOTS as usize],
            rows: [false; ROW_SLOTS as usize],
            slab: Slab { top: 0, breadth: 1_536, height: 128, fc: 4_000 },
        }
    }

    // Commands

    pub fn place(&mut self, slot: u8, role: u8, top: u16, breadth: u16, height: u16, fy: u32) {
        self.bytes.extend([1, slot, role]);
        for measure in [top, breadth, height] {
            self.bytes.extend(measure.to_be_bytes());
        }
        self.bytes.extend(fy.to_be_bytes());
        if let Some(full) = self.plates.get_mut(usize::from(slot)) {
            *full = true;
        }
    }

    pub fn lift(&mut self, slot: u8) {
        self.bytes.extend([2, slot]);
        if let Some(full) = self.plates.get_mut(usize::from(slot)) {
            *full = false;
        }
    }

    pub fn lower(&mut self, levels: u16) {
        self.bytes.push(3);
        self.bytes.extend(levels.to_be_bytes());
    }

    pub fn enter(&mut self, slot: u8, load: u8, effect: u8, sixteenths: i32) {
        self.bytes.extend([4, slot, load, effect]);
        self.bytes.extend(sixteenths.to_be_bytes());
        if let Some(full) = self.rows.get_mut(usize::from(slot)) {
            *full = true;
        }
    }

    pub fn strike(&mut self, slot: u8) {
        self.bytes.extend([5, slot]);
        if let Some(full) = self.rows.get_mut(usize::from(slot)) {
            *full = false;
        }
    }

    pub fn extremes(&mut self, state: u8, effect: u8) {
        self.bytes.extend([6, state, effect]);
    }

    pub fn bending(&mut self, state: u8, top: u16, breadth: u16, height: u16, fc: u16) {
        self.bytes.extend([7, state]);
        for operand in [top, breadth, height, fc] {
            self.bytes.extend(operand.to_be_bytes());
        }
    }

    pub fn shear(&mut self, state: u8, spacing: u16) {
        self.bytes.extend([8, state]);
        self.bytes.extend(spacing.to_be_bytes());
    }

    // Operands

    fn yield_of_plate(&mut self) -> u32 {
        match self.random.below(16) {
            0 => self.random.pick(&YIELDS),
            1..=3 => 30_000 + self.random.below(70_001) as u32,
            4 => 70_000,
            5 => 70_001,
            6 => 100_000,
            _ => self.random.pick(&[30_000, 36_000, 40_000, 50_000, 50_000, 70_000]),
        }
    }

    /// Mostly a full slot where `full`, else mostly an empty one.
    fn plate_slot(&mut self, full: bool) -> u8 {
        if self.random.one_in(24) {
            return self.random.pick(&PLATE_SLOT_EDGES);
        }
        let slot = self.random.below(PLATE_SLOTS.into()) as u8;
        (0..PLATE_SLOTS)
            .map(|step| (slot + step) % PLATE_SLOTS)
            .find(|&slot| self.plates[usize::from(slot)] == full)
            .unwrap_or(slot)
    }

    fn row_slot(&mut self, full: bool) -> u8 {
        if self.random.one_in(24) {
            return self.random.pick(&ROW_SLOT_EDGES);
        }
        let slot = self.random.below(ROW_SLOTS.into()) as u8;
        (0..ROW_SLOTS).map(|step| (slot + step) % ROW_SLOTS).find(|&slot| self.rows[usize::from(slot)] == full).unwrap_or(slot)
    }

    fn state(&mut self) -> u8 {
        if self.random.one_in(24) { self.random.pick(&CODES) } else { self.random.within(1, 9) as u8 }
    }

    fn effect(&mut self) -> u8 {
        if self.random.one_in(32) { self.random.pick(&CODES) } else { self.random.within(1, 2) as u8 }
    }

    fn load(&mut self) -> u8 {
        if self.random.one_in(32) { self.random.pick(&CODES) } else { self.random.within(1, 4) as u8 }
    }

    fn sixteenths(&mut self) -> i32 {
        match self.random.below(16) {
            0 => self.random.pick(&SIXTEENTHS),
            1 => self.random.next() as i32,
            2..=4 => self.random.below(2 * ROW_LIMIT as u64 + 1) as i32 - ROW_LIMIT as i32,
            _ => self.random.below(80_000) as i32 - 20_000,
        }
    }

    fn any_slab(&mut self) -> Slab {
        let random = &mut self.random;
        match random.below(16) {
            0..=6 => self.slab,
            // So narrow that the axis comes down into the web.
            7..=9 => Slab { breadth: random.within(1, 200), ..self.slab },
            10 | 11 => Slab {
                top: random.within(0, 300),
                breadth: random.within(1, 4_096),
                height: random.within(1, 400),
                fc: 20 * random.within(100, 500),
            },
            12 | 13 => {
                // As high as the force limit lets it be, or one more.
                let breadth = random.within(2_048, 4_096);
                let fc = 20 * random.within(250, 500);
                let strip = u64::from(breadth) * 17 * u64::from(fc / 20);
                let height = ((1 << 36) / strip) as u16 + random.within(0, 1);
                Slab { top: random.within(0, 4_097_u16.saturating_sub(height)), breadth, height, fc }
            }
            14 => {
                // The foot at the lowest level, or one past it.
                let height = random.within(1, 4_096);
                Slab { top: 4_096 - height + random.within(0, 1), height, ..self.slab }
            }
            _ => Slab {
                top: random.pick(&MEASURES),
                breadth: random.pick(&MEASURES),
                height: random.pick(&MEASURES),
                fc: random.pick(&STRENGTHS),
            },
        }
    }

    // Commands with random operands

    fn any_place(&mut self) {
        let slot = self.plate_slot(false);
        let fy = self.yield_of_plate();
        let role = match self.random.below(12) {
            0 => self.random.pick(&CODES),
            1..=5 => self.random.within(1, 3) as u8,
            _ => 4,
        };
        let random = &mut self.random;
        let (top, breadth, height) = match random.below(8) {
            0 => (random.pick(&MEASURES), random.pick(&MEASURES), random.pick(&MEASURES)),
            1 => {
                let height = random.within(1, 4_096);
                (4_096 - height + random.within(0, 1), random.within(1, 66), height)
            }
            _ if role == 2 => {
                let breadth = random.pick(&[1, 4, 6, 8, 9, 12, 16, 63, 64, 65]);
                // At the limit of compact webs, around it, or anywhere.
                let height = match random.below(3) {
                    0 => (150 * breadth).min(4_000) + random.within(0, 1),
                    1 => random.within(100, 1_600),
                    _ => random.within(1, 4_096),
                };
                (random.within(0, 4_097 - height.min(4_096)), breadth, height)
            }
            _ => (random.within(0, 1_500), random.within(1, 600), random.within(1, 100)),
        };
        self.place(slot, role, top, breadth, height, fy);
    }

    fn any_bending(&mut self) {
        let state = self.state();
        let slab = self.any_slab();
        self.bending(state, slab.top, slab.breadth, slab.height, slab.fc);
    }

    fn any_shear(&mut self) {
        let state = self.state();
        let spacing = match self.random.below(8) {
            0..=2 => 0,
            3 => self.random.pick(&MEASURES),
            4 => self.random.pick(&[159, 160, 1_920, 1_921]),
            _ => self.random.within(1, 4_800),
        };
        self.shear(state, spacing);
    }

    fn any_enter(&mut self) {
        let (slot, load, effect) = (self.row_slot(false), self.load(), self.effect());
        let sixteenths = self.sixteenths();
        self.enter(slot, load, effect, sixteenths);
    }

    fn any_extremes(&mut self) {
        let (state, effect) = (self.state(), self.effect());
        self.extremes(state, effect);
    }

    fn any_lower(&mut self) {
        let levels = match self.random.below(8) {
            0 => self.random.pick(&MEASURES),
            1 => self.random.within(0, 4_096),
            _ => self.random.within(0, 40),
        };
        self.lower(levels);
    }

    fn any_command(&mut self) {
        match self.random.below(16) {
            0 | 1 => self.any_place(),
            2 => {
                let slot = self.plate_slot(true);
                self.lift(slot);
            }
            3 => self.any_lower(),
            4..=6 => self.any_enter(),
            7 => {
                let slot = self.row_slot(true);
                self.strike(slot);
            }
            8 | 9 => self.any_extremes(),
            10..=13 => self.any_bending(),
            _ => self.any_shear(),
        }
    }

    fn commands_at_random(&mut self) {
        let most = if self.random.one_in(32) { 600 } else { 40 };
        for _ in 0..self.random.below(most) {
            self.any_command();
        }
    }

    // Records

    /// A top flange, a web and a bottom flange below the slab, with measures as girders have them.
    fn girder(&mut self) {
        let random = &mut self.random;
        let haunch = random.within(0, 8);
        self.slab =
            Slab { top: 0, breadth: random.within(600, 2_400), height: random.within(60, 200), fc: 20 * random.within(150, 400) };
        let top = self.slab.height + haunch;
        let flange = random.within(6, 40);
        let breadth = random.within(4, 20);
        let web = match random.below(4) {
            0 => 150 * breadth + random.within(0, 1),
            _ => random.within(20, 120) * breadth,
        };
        let measures = [
            (top, random.within(96, 400), flange),
            (top + flange, breadth, web),
            (top + flange + web, random.within(96, 500), random.within(6, 60)),
        ];
        for (role, (top, breadth, height)) in (1..).zip(measures) {
            let slot = self.plate_slot(false);
            let fy = self.yield_of_plate();
            self.place(slot, role, top, breadth, height, fy);
        }
    }

    fn girder_and_commands(&mut self) {
        self.girder();
        self.commands_at_random();
    }

    /// All plate slots filled, then plates lifted, lowered and placed again between questions.
    fn stack(&mut self) {
        if self.random.one_in(2) {
            self.girder();
        }
        for _ in 0..self.random.within(4, 26) {
            self.any_place();
        }
        for _ in 0..self.random.below(30) {
            match self.random.below(8) {
                0 | 1 => {
                    let slot = self.plate_slot(true);
                    self.lift(slot);
                }
                2 | 3 => self.any_place(),
                4 => self.any_lower(),
                _ => self.any_bending(),
            }
        }
    }

    /// Plates that together come to 2^36, or one step past it.
    fn heavy(&mut self) {
        if self.random.one_in(2) {
            // 2^36 in 2^n equal plates.
            let halvings = self.random.below(5) as u32;
            for slot in 0..1 << halvings {
                let top = self.random.within(0, 4_096 - (512 >> halvings));
                self.place(slot, 4, top, 4_096, 512 >> halvings, 32_768);
            }
            self.any_bending();
            let slot = self.random.below(1 << halvings) as u8;
            let fy = self.random.pick(&[32_768, 32_769]);
            self.place(23, 4, 0, 1, 1, 30_000);
            self.lift(slot);
            self.place(slot, 4, 0, 4_096, 512 >> halvings, fy);
        } else {
            let fy = self.random.pick(&[30_000, 50_000, 70_000, 100_000]);
            let top = self.random.within(0, 60);
            let (breadth, height) = (self.random.within(1, 64), self.random.within(1, 4_000));
            self.place(0, 1, top, 4_096, 16, fy);
            self.place(1, 2, top, breadth, height, 50_000);
            self.place(2, 3, top, 4_096, 16, fy);
            let highest = (1 << 36) / (4_096 * u64::from(fy));
            for slot in 3..8 {
                let height = 1 + self.random.below(highest) as u16;
                let top = self.random.within(0, 4_096 - height);
                self.place(slot, 4, top, 4_096, height, fy);
            }
        }
        for _ in 0..self.random.below(12) {
            self.any_bending();
            self.any_command();
        }
    }

    /// Many rows, then extremes between changes of rows.
    fn rows(&mut self) {
        let single = self.random.one_in(4).then(|| self.random.pick(&[ROW_LIMIT as i32, -ROW_LIMIT as i32]));
        for _ in 0..self.random.within(1, 70) {
            match single {
                Some(sixteenths) => {
                    let (slot, load, effect) = (self.row_slot(false), self.load(), self.effect());
                    self.enter(slot, load, effect, sixteenths);
                }
                None => self.any_enter(),
            }
        }
        for _ in 0..self.random.below(60) {
            match self.random.below(4) {
                0 => {
                    let slot = self.row_slot(true);
                    self.strike(slot);
                }
                1 => self.any_enter(),
                _ => self.any_extremes(),
            }
        }
    }

    /// Operands at their limits and one beyond, in any combination.
    fn edges(&mut self) {
        if self.random.one_in(2) {
            self.girder();
        }
        for _ in 0..self.random.below(40) {
            let random = &mut self.random;
            let (plate_slot, row_slot) = (random.pick(&PLATE_SLOT_EDGES), random.pick(&ROW_SLOT_EDGES));
            let (code, other) = (random.pick(&CODES), random.pick(&CODES));
            let (top, breadth, height) = (random.pick(&MEASURES), random.pick(&MEASURES), random.pick(&MEASURES));
            let (fy, fc, sixteenths) = (random.pick(&YIELDS), random.pick(&STRENGTHS), random.pick(&SIXTEENTHS));
            match random.below(8) {
                0 => self.place(plate_slot, code, top, breadth, height, fy),
                1 => self.lift(plate_slot),
                2 => self.lower(height),
                3 => self.enter(row_slot, code, other, sixteenths),
                4 => self.strike(row_slot),
                5 => self.extremes(code, other),
                6 => self.bending(code, top, breadth, height, fc),
                _ => self.shear(code, height),
            }
        }
    }

    /// A girder under effects that just reach its resistance, fall just short of it, or just pass it.
    fn at_limit(&mut self) {
        self.girder();
        let slab = self.any_slab();
        let spacing = if self.random.one_in(2) { 0 } else { self.random.within(100, 2_000) };
        self.bending(5, slab.top, slab.breadth, slab.height, slab.fc);
        self.shear(5, spacing);
        let mut lines = Vec::new();
        twin::transcript(&self.bytes, &mut lines);
        let sign = if self.random.one_in(2) { 1 } else { -1 };
        if let Some(mn) = number_behind(&lines, " mn ") {
            self.reach(100 * mn / 750, 1, 1);
        }
        if let Some(resistance) = number_behind(&lines, "8 shear ") {
            self.reach(100 * resistance / 16_000, 2, sign);
        }
        self.bending(5, slab.top, slab.breadth, slab.height, slab.fc);
        self.shear(5, spacing);
        for effect in [1, 2] {
            let slot = self.row_slot(false);
            let step = self.random.pick(&[-1, 1]);
            self.enter(slot, 4, effect, step);
        }
        self.bending(5, slab.top, slab.breadth, slab.height, slab.fc);
        self.shear(5, spacing);
    }

    /// Enters DC and WS so that in Strength V, with 125 and 40 as high factors, the extreme is within a step of 5 of the target.
    fn reach(&mut self, target: i64, effect: u8, sign: i64) {
        let target = target / 5 * 5 + 5 * self.random.pick(&[-1, 0, 0, 1]);
        let Some(ws) = (0..25).find(|ws| (target - 40 * ws) % 125 == 0) else { return };
        let dc = (target - 40 * ws) / 125;
        if !(0..=8 * ROW_LIMIT).contains(&dc) {
            return;
        }
        self.enter_sum(sign * ws, 4, effect);
        self.enter_sum(sign * dc, 1, effect);
    }

    fn enter_sum(&mut self, mut sum: i64, load: u8, effect: u8) {
        while sum != 0 {
            let sixteenths = sum.clamp(-ROW_LIMIT, ROW_LIMIT);
            let slot = self.row_slot(false);
            self.enter(slot, load, effect, sixteenths as i32);
            sum -= sixteenths;
        }
    }

    /// Equal flanges, so that the axis halves the web, at the limits of compact webs and of shear; then slabs below all plates,
    /// which leave the axis alone and put the depth at the limit of ductile sections.
    fn balanced(&mut self) {
        let random = &mut self.random;
        let breadth = random.within(1, 16);
        let (ratio, fy) = match random.below(4) {
            0 | 1 => random.pick(&COMPACT_LIMITS),
            2 => random.pick(&SHEAR_LIMITS),
            _ => (random.within(1, 150), 70_000),
        };
        let web = ratio * breadth + random.pick(&[0, 0, 1, 2]);
        let flange = random.within(1, 40);
        let flange_breadth = random.within(1, 400);
        let mut top = random.within(0, 400);
        if random.one_in(2) {
            // 42 × depth = 100 × axis has whole depths only where the axis is a multiple of 21.
            top += 20 - (top + flange + web / 2 + 20) % 21;
        }
        let axis = top + flange + web / 2;
        self.place(0, 1, top, flange_breadth, flange, fy);
        self.place(1, 2, top + flange, breadth, web, fy);
        self.place(2, 3, top + flange + web, flange_breadth, flange, fy);
        self.shear(1, 0);
        let spacing = self.random.pick(&[web / 4, web / 4 + 1, 3 * web, 3 * web + 1, web]);
        self.shear(1, spacing);
        for step in 0..3 {
            let foot = (u32::from(axis) * 100 / 42) as u16 + step - 1;
            self.bending(1, foot.clamp(1, 4_096) - 1, 1, 1, 2_000);
        }
        self.commands_at_random();
    }

    fn noise(&mut self) {
        for _ in 0..self.random.below(200) {
            let byte = self.random.next() as u8;
            // Mostly small bytes: a command byte, and operands that mean something.
            let byte = if self.random.one_in(8) { byte } else { byte % 9 };
            self.bytes.push(byte);
        }
    }

    fn mingled(&mut self) {
        for _ in 0..self.random.within(1, 4) {
            match self.random.below(5) {
                0 => self.girder_and_commands(),
                1 => self.stack(),
                2 => self.rows(),
                3 => self.edges(),
                _ => self.heavy(),
            }
        }
    }

    /// Goes on to the record limit, one byte below it, or past it.
    fn lengthen(&mut self) {
        let beyond = self.random.below(4_096) as usize;
        let length = self.random.pick(&[RECORD_LIMIT - 1, RECORD_LIMIT, RECORD_LIMIT, RECORD_LIMIT + 1, RECORD_LIMIT + beyond]);
        while self.bytes.len() < length {
            self.any_command();
        }
        self.bytes.truncate(length);
    }

    /// Now and then cuts the record, or puts an unknown command into it.
    fn spoil(&mut self) {
        let length = self.bytes.len() as u64;
        match self.random.below(16) {
            0 => {
                let place = self.random.below(length + 1);
                self.bytes.truncate(place as usize);
            }
            1 => self.bytes.truncate((length - length.min(self.random.below(13))) as usize),
            2 => {
                let unknown = self.random.pick(&[0, 9, 10, 128, 255]);
                self.bytes.push(unknown);
                if self.random.one_in(2) {
                    self.any_command();
                }
            }
            _ => {}
        }
    }
}

/// The number behind the last occurrence of a word in a transcript.
fn number_behind(lines: &[u8], word: &str) -> Option<i64> {
    let text = std::str::from_utf8(lines).ok()?;
    let behind = &text[text.rfind(word)? + word.len()..];
    let end = behind.find(|c: char| !c.is_ascii_digit()).unwrap_or(behind.len());
    behind[..end].parse().ok()
}
