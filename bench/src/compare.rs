//! Both readers on the same random records, byte for byte.

use crate::{proved, records, twin};
use std::fmt;

/// Room for every transcript: a record of commands of two bytes, each with a line of 64, and one line more.
pub const ROOM: usize = 65_536 / 2 * 64 + 64;
const GUARD: usize = 64;
const UNTOUCHED: u8 = 0xA5;
/// How often the buffers of exact and of short length are tried.
const TRIED_EVERY: u64 = 2;

const NAMES: [&str; 8] = ["place", "lift", "lower", "enter", "strike", "extremes", "bending", "shear"];
const LENGTHS: [usize; 8] = [13, 2, 3, 8, 2, 3, 10, 4];
/// What each command can be refused with.
const REFUSALS: [&[usize]; 8] = [
    &[1, 2, 4, 5, 6, 17],
    &[1, 3, 17],
    &[9, 17],
    &[1, 2, 7, 17, 19],
    &[1, 3, 17],
    &[15, 17, 19],
    &[10, 11, 12, 15, 17],
    &[12, 13, 15, 17],
];

/// Compares the first `count` records of a seed, up to the first difference.
pub fn compare(seed: u64, count: u64) -> Result<Tally, Box<Difference>> {
    let mut tally = Tally::default();
    let mut plain = Vec::with_capacity(ROOM);
    let mut buffer = vec![UNTOUCHED; ROOM + GUARD];
    for number in 0..count {
        let record = records::record(seed, number);
        plain.clear();
        twin::transcript(&record, &mut plain);
        let checked = check(&record, &plain, ROOM, &mut buffer).and_then(|()| {
            if number % TRIED_EVERY != 0 {
                return Ok(());
            }
            tally.buffers_tried += 1;
            check(&record, &plain, plain.len(), &mut buffer)?;
            check_short(&record, &plain, number / TRIED_EVERY, &mut buffer)
        });
        if let Err(what) = checked {
            let mut proved = vec![0; ROOM];
            let length = proved::transcript(&record, &mut proved);
            proved.truncate(length);
            return Err(Box::new(Difference { what, seed, number, record, plain, proved }));
        }
        tally.add(&record, &plain);
    }
    Ok(tally)
}

/// The proved transcript in a buffer of `length` bytes is the plain one, with nothing written behind it.
fn check(record: &[u8], plain: &[u8], length: usize, buffer: &mut [u8]) -> Result<(), &'static str> {
    let end = plain.len();
    buffer[end..end + GUARD].fill(UNTOUCHED);
    let written = proved::transcript(record, &mut buffer[..length]);
    if written != end {
        Err("the lengths differ")
    } else if buffer[..end] != *plain {
        Err("the transcripts differ")
    } else if buffer[end..end + GUARD].iter().any(|&byte| byte != UNTOUCHED) {
        Err("bytes behind the proved transcript were touched")
    } else {
        Ok(())
    }
}

/// A buffer that is too short is left as it is, and the length is told all the same.
fn check_short(record: &[u8], plain: &[u8], turn: u64, buffer: &mut [u8]) -> Result<(), &'static str> {
    let end = plain.len();
    if end == 0 {
        return Ok(());
    }
    let length = [end - 1, end / 2, 0][(turn % 3) as usize];
    buffer[..end + GUARD].fill(UNTOUCHED);
    let told = proved::transcript(record, &mut buffer[..length]);
    if told != end {
        Err("the length told of a short buffer differs")
    } else if buffer[..end + GUARD].iter().any(|&byte| byte != UNTOUCHED) {
        Err("a short buffer was touched")
    } else {
        Ok(())
    }
}

/// The first record on which the readers differ.
pub struct Difference {
    what: &'static str,
    seed: u64,
    number: u64,
    record: Vec<u8>,
    plain: Vec<u8>,
    proved: Vec<u8>,
}

impl fmt::Display for Difference {
    fn fmt(&self, f: &mut fmt::Formatter) -> fmt::Result {
        writeln!(f, "DIFFERENCE: {} (seed {}, record {})", self.what, self.seed, self.number)?;
        write!(f, "record: ")?;
        for byte in &self.record {
            write!(f, "{byte:02x}")?;
        }
        writeln!(f, "\nproved:\n{}", String::from_utf8_lossy(&self.proved))?;
        writeln!(f, "plain:\n{}", String::from_utf8_lossy(&self.plain))
    }
}

/// What was met in the records compared, so that one can see that no command and no refusal was left out.
#[derive(Default)]
pub struct Tally {
    records: u64,
    bytes: u64,
    lines: u64,
    transcript_bytes: u64,
    buffers_tried: u64,
    empty: u64,
    /// Commands met, cut ones included, and what they were refused with.
    met: [u64; 8],
    refused: [[u64; 21]; 8],
    unknown: u64,
    too_long: u64,
    bending_verdicts: [u64; 4],
    shear_verdicts: [u64; 4],
}

impl Tally {
    fn add(&mut self, record: &[u8], transcript: &[u8]) {
        self.records += 1;
        self.bytes += record.len() as u64;
        self.transcript_bytes += transcript.len() as u64;
        self.empty += u64::from(record.is_empty());
        if record.len() <= 65_536 {
            self.add_commands(record);
        }
        for line in String::from_utf8_lossy(transcript).lines() {
            self.lines += 1;
            self.add_line(record, line);
        }
    }

    fn add_commands(&mut self, record: &[u8]) {
        let mut place = 0;
        while let Some(command @ 1..=8) = record.get(place) {
            let index = usize::from(command - 1);
            self.met[index] += 1;
            place += LENGTHS[index];
        }
    }

    fn add_line(&mut self, record: &[u8], line: &str) {
        let words: Vec<&str> = line.split(' ').collect();
        let last: usize = words[words.len() - 1].parse().unwrap_or(0);
        match words[0] {
            "7" => self.bending_verdicts[last] += 1,
            "8" => self.shear_verdicts[last] += 1,
            "fault" if last == 20 => self.too_long += 1,
            "fault" if last == 16 => self.unknown += 1,
            "fault" => {
                let place: usize = words[2].parse().unwrap_or(0);
                self.refused[usize::from(record[place] - 1)][last] += 1;
            }
            _ => {}
        }
    }
}

impl fmt::Display for Tally {
    fn fmt(&self, f: &mut fmt::Formatter) -> fmt::Result {
        writeln!(f, "  {} records of {} bytes, {} of them empty", self.records, self.bytes, self.empty)?;
        writeln!(f, "  {} lines of {} bytes, no difference", self.lines, self.transcript_bytes)?;
        writeln!(f, "  {} records again with buffers of exact and of short length", self.buffers_tried)?;
        writeln!(f, "  {:<12} {:>9} {:>9}  refused with", "command", "met", "accepted")?;
        for (index, name) in NAMES.iter().enumerate() {
            let refused = &self.refused[index];
            let accepted = self.met[index] - refused.iter().sum::<u64>();
            write!(f, "  {:02} {name:<9} {:>9} {accepted:>9} ", index + 1, self.met[index])?;
            for &number in REFUSALS[index] {
                write!(f, " {number}: {}", refused[number])?;
            }
            writeln!(f)?;
        }
        writeln!(f, "  unknown command, 16: {}; record too long, 20: {}", self.unknown, self.too_long)?;
        let [carries, not_compact, brittle, too_weak] = self.bending_verdicts;
        writeln!(f, "  bending verdicts 0: {carries}, 1: {not_compact}, 2: {brittle}, 3: {too_weak}")?;
        writeln!(f, "  shear verdicts 0: {}, 3: {}", self.shear_verdicts[0], self.shear_verdicts[3])
    }
}
