//! How long the library takes to read a frame, against Rust that does the same job bit by bit and with a table (docs/SPEED.md).
mod by_bit;
mod by_table;
mod inputs;
mod library;
mod reading;

use by_bit::ByBit;
use by_table::ByTable;
use inputs::{Chance, Input};
use library::Reading;
use std::hint::black_box;
use std::process::exit;
use std::time::Instant;

const ANSWERS: usize = 1_000_000;
const SIZES: [usize; 3] = [8, 24, 262];
const FRAMES: usize = 64;
const ROUNDS: usize = 31;
/// About as many bytes are read in one round, whatever the size of a frame.
const BYTES: usize = 4_000_000;

fn main() {
    let words: Vec<String> = std::env::args().skip(1).collect();
    let words: Vec<&str> = words.iter().map(String::as_str).collect();
    let (seed, times) = match words[..] {
        [] => ("1", true),
        [seed] => (seed, true),
        [seed, "answers"] => (seed, false),
        _ => stop(),
    };
    let seed = seed.parse().unwrap_or_else(|_| stop());

    let mut chance = Chance::new(seed);
    same_answers(&mut chance);
    if !times {
        return;
    }
    println!("ns for one call, the best of {ROUNDS} rounds, and what the library takes as a ratio");
    println!(
        "{:>5} {:>8} {:>12} {:>14} {:>7} {:>9}",
        "bytes", "library", "Rust by bit", "Rust by table", "to bit", "to table"
    );
    for size in SIZES {
        let frames: Vec<Input> = (0..FRAMES).map(|_| inputs::frame(&mut chance, size)).collect();
        let [library, by_bit, by_table] = best(&frames);
        println!(
            "{size:>5} {library:>8.1} {by_bit:>12.1} {by_table:>14.1} {:>7.2} {:>9.2}",
            library / by_bit,
            library / by_table
        );
    }
}

fn stop() -> ! {
    eprintln!("usage: bash speed/run [SEED [answers]], where SEED is a number");
    exit(2)
}

/// All three give the same answers, and every answer of reading is among them.
fn same_answers(chance: &mut Chance) {
    let mut given = [0; 9];
    let mut reading = Reading::none();
    for _ in 0..ANSWERS {
        let input = inputs::anything(chance);
        reading.read(input.channel, &input.bytes);
        let library = reading.told();
        let by_bit = reading::read::<ByBit>(input.channel, &input.bytes);
        let by_table = reading::read::<ByTable>(input.channel, &input.bytes);
        if library != by_bit || library != by_table {
            eprintln!("speed: channel {}, bytes {:02X?}:", input.channel, input.bytes);
            eprintln!("library {library:?}, by bit {by_bit:?}, by table {by_table:?}");
            exit(1);
        }
        given[library.err().unwrap_or(0) as usize] += 1;
    }
    if given.contains(&0) {
        eprintln!("speed: an answer was not given: {given:?}");
        exit(1);
    }
    println!("{ANSWERS} inputs, the same answers; so often 0 (a frame) and the refusals 1 to 8: {given:?}");
}

/// ns for one call of the library, of Rust by bit and of Rust by table, each the best of the rounds. In each round all three take their turn.
fn best(frames: &[Input]) -> [f64; 3] {
    let mut best = [f64::INFINITY; 3];
    let mut reading = Reading::none();
    for _ in 0..ROUNDS {
        let round = [
            time(frames, |input| {
                reading.read(black_box(input.channel), black_box(&input.bytes));
                black_box(&mut reading);
            }),
            time(frames, |input| {
                black_box(reading::read::<ByBit>(black_box(input.channel), black_box(&input.bytes))).ok();
            }),
            time(frames, |input| {
                black_box(reading::read::<ByTable>(black_box(input.channel), black_box(&input.bytes))).ok();
            }),
        ];
        for (best, time) in best.iter_mut().zip(round) {
            *best = best.min(time);
        }
    }
    best
}

fn time(frames: &[Input], mut read: impl FnMut(&Input)) -> f64 {
    let times = BYTES / (FRAMES * frames[0].bytes.len());
    let start = Instant::now();
    for _ in 0..times {
        for input in frames {
            read(input);
        }
    }
    start.elapsed().as_nanos() as f64 / (times * frames.len()) as f64
}
