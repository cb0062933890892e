//! The time that both readers take for the same records.

use crate::compare::ROOM;
use crate::records::{Draft, Random};
use crate::{proved, records, twin};
use std::hint::black_box;
use std::time::{Duration, Instant};

const FULL: usize = 65_536;
const GROWTH: [usize; 4] = [1_024, 4_096, 16_384, FULL];
const MIXED_RECORDS: u64 = 1_000;
/// An odd number of samples has a middle one.
const SAMPLES: usize = 101;
/// Long enough that the clock's own steps do not show, and short enough to fall between most interruptions.
const SAMPLE: Duration = Duration::from_millis(2);

/// A record of one sort, of the given length.
type Workload = (&'static str, fn(usize) -> Vec<u8>);

const WORKLOADS: [Workload; 3] =
    [("bending, 24 plates", bending_record), ("changes only", changes_record), ("extremes, 64 rows", extremes_record)];

pub fn print_tables(seed: u64) {
    println!("Wall time, median of {SAMPLES} samples taken in turn. Proved: with room for any transcript, and with just room for");
    println!("this one. Ratios are to plain.");
    println!();
    print_heading("Microseconds per record:");
    let mixed: Vec<Vec<u8>> = (0..MIXED_RECORDS).map(|number| records::record(!seed, number)).collect();
    print_record_times("mixed (mean)", &mixed);
    for (name, record) in WORKLOADS {
        print_record_times(name, &[record(FULL)]);
    }
    println!();
    print_heading("Nanoseconds per byte as the record grows:");
    for (name, record) in WORKLOADS {
        for length in GROWTH {
            let record = record(length);
            let lines = line_count(&record);
            print_row(name, length, lines, measure(&[record]).map(|time| 1e9 * time / length as f64));
        }
    }
}

fn print_heading(what: &str) {
    println!("{what}");
    print!("  {:<20} {:>6} {:>6} {:>10} {:>10} {:>10}", "", "bytes", "lines", "proved", "just room", "plain");
    println!(" {:>6} {:>6}", "ratio", "ratio");
}

fn print_record_times(name: &str, records: &[Vec<u8>]) {
    let count = records.len();
    let bytes = records.iter().map(Vec::len).sum::<usize>() / count;
    let lines = records.iter().map(|record| line_count(record)).sum::<usize>() / count;
    print_row(name, bytes, lines, measure(records).map(|time| 1e6 * time / count as f64));
}

fn print_row(name: &str, bytes: usize, lines: usize, [proved, just_room, plain]: [f64; 3]) {
    print!("  {name:<20} {bytes:>6} {lines:>6} {proved:>10.2} {just_room:>10.2} {plain:>10.2}");
    println!(" {:>6.2} {:>6.2}", proved / plain, just_room / plain);
}

fn line_count(record: &[u8]) -> usize {
    let mut transcript = Vec::new();
    twin::transcript(record, &mut transcript);
    transcript.iter().filter(|&&byte| byte == b'\n').count()
}

/// Seconds for one pass over all records: proved, proved with just enough room, plain. The samples are taken in turn, so that
/// what else the machine does falls on all alike.
fn measure(records: &[Vec<u8>]) -> [f64; 3] {
    let mut transcript = Vec::with_capacity(ROOM);
    let lengths: Vec<usize> = records.iter().map(|record| proved::transcript(record, &mut [])).collect();
    let (mut room, mut just_room) = (vec![0; ROOM], vec![0; ROOM]);
    let mut runs: [&mut dyn FnMut(); 3] = [
        &mut || {
            for record in records {
                black_box(proved::transcript(black_box(record), black_box(&mut room)));
            }
        },
        &mut || {
            for (record, &length) in records.iter().zip(&lengths) {
                black_box(proved::transcript(black_box(record), black_box(&mut just_room[..length])));
            }
        },
        &mut || {
            for record in records {
                transcript.clear();
                twin::transcript(black_box(record), &mut transcript);
                black_box(&transcript);
            }
        },
    ];
    let passes = runs.each_mut().map(passes);
    let mut samples: [Vec<f64>; 3] = Default::default();
    for _ in 0..SAMPLES {
        for ((run, passes), samples) in runs.iter_mut().zip(passes).zip(&mut samples) {
            samples.push(sample(run, passes));
        }
    }
    samples.map(median)
}

/// How many passes fill a sample. The first pass, with cold caches, only warms up.
fn passes(run: &mut impl FnMut()) -> u32 {
    run();
    let start = Instant::now();
    let mut passes = 0;
    while start.elapsed() < SAMPLE {
        run();
        passes += 1;
    }
    passes
}

fn sample(run: &mut impl FnMut(), passes: u32) -> f64 {
    let start = Instant::now();
    for _ in 0..passes {
        run();
    }
    start.elapsed().as_secs_f64() / f64::from(passes)
}

fn median(mut samples: Vec<f64>) -> f64 {
    samples.sort_by(f64::total_cmp);
    samples[samples.len() / 2]
}

// Records

/// Repeats a command until the record has the given length, and pads it with short refused ones.
fn fill(draft: &mut Draft, length: usize, mut command: impl FnMut(&mut Draft, usize)) {
    let mut turn = 0;
    // 28 bytes are the longest turn; at least two bytes are left, as no command has fewer.
    while draft.bytes.len() + 28 + 2 <= length {
        command(draft, turn);
        turn += 1;
    }
    if (length - draft.bytes.len()) % 2 == 1 {
        draft.lower(u16::MAX);
    }
    while draft.bytes.len() < length {
        draft.lift(u8::MAX);
    }
}

fn bending_record(length: usize) -> Vec<u8> {
    let mut draft = Draft::new(Random::new(0, 0));
    draft.place(0, 1, 128, 192, 16, 50_000);
    draft.place(1, 2, 144, 8, 640, 50_000);
    draft.place(2, 3, 784, 256, 24, 50_000);
    for slot in 3..24 {
        let step = u16::from(slot);
        draft.place(slot, 4, 100 + 30 * step, 10 + step, 20, 36_000);
    }
    fill(&mut draft, length, |draft, turn| {
        let step = (turn % 1_000) as u16;
        draft.bending(1 + (turn % 9) as u8, 0, 100 + 2 * step, 100 + step % 29, 4_000);
    });
    draft.bytes
}

/// Twelve plates and 32 rows stand at a time; each turn places and enters one, lowers all, lifts and strikes the oldest.
fn changes_record(length: usize) -> Vec<u8> {
    let mut draft = Draft::new(Random::new(0, 0));
    fill(&mut draft, length, |draft, turn| {
        draft.place((turn % 24) as u8, 4, (turn * 37 % 101) as u16, 200, 20, 50_000);
        draft.enter((turn % 64) as u8, 1 + (turn % 4) as u8, 1 + (turn % 2) as u8, 1_600 - turn as i32);
        draft.lower(1);
        if turn >= 12 {
            draft.lift(((turn - 12) % 24) as u8);
        }
        if turn >= 32 {
            draft.strike(((turn - 32) % 64) as u8);
        }
    });
    draft.bytes
}

fn extremes_record(length: usize) -> Vec<u8> {
    let mut draft = Draft::new(Random::new(0, 0));
    for slot in 0..64 {
        draft.enter(slot, 1 + slot % 4, 1 + slot / 4 % 2, 9_000 - 400 * i32::from(slot));
    }
    fill(&mut draft, length, |draft, turn| draft.extremes(1 + (turn % 9) as u8, 1 + (turn / 9 % 2) as u8));
    draft.bytes
}
