//! The program's speed on a file, beside the library's on the same records in memory, in one call and a call a record;
//! and the program's peak memory.

use std::fs::{self, File};
use std::path::Path;
use std::process::{Command, Stdio};
use std::time::Instant;

use crate::floor_pieces::accepted;
use crate::random::Random;

#[cfg(linked)]
use crate::ours::linked;

/// Nothing of the library can be called on this processor, and nothing of this is.
#[cfg(not(linked))]
mod linked {
    pub fn record(_: &mut [u8; 9], _: &[u8]) -> u32 {
        unreachable!()
    }

    pub fn floor(_: &mut [u8; 9], _: &[u8], _: &mut [u64; 2]) -> u32 {
        unreachable!()
    }
}

const START: [u8; 9] = [0, 0, 0, 0, 0, 0, 0, 0, 3];
const ROUNDS: usize = 7;
/// Request R-1: of the library's speed in one call, in memory, the program has no less.
const BAR: f64 = 0.95;

/// Accepted records of both kinds and 0 to 32 ends, all different, up to about so many bytes.
fn mixed(most: usize) -> (Vec<u8>, usize) {
    let mut random = Random::new(7);
    let mut bytes = Vec::with_capacity(most + 600);
    let mut count = 0;
    while bytes.len() < most {
        bytes.extend(accepted(&mut random));
        count += 1;
    }
    (bytes, count)
}

/// All records in one call of the library's C interface; seconds.
fn in_one_call(bytes: &[u8], count: usize) -> f64 {
    let begun = Instant::now();
    let (mut cells, mut answer) = (START, [0; 2]);
    let word = linked::floor(&mut cells, bytes, &mut answer);
    let all = (0, [bytes.len() as u64, count as u64]);
    assert_eq!((word, answer), all, "all are accepted");
    begun.elapsed().as_secs_f64()
}

/// Each record in a call of its own; seconds.
fn one_by_one(bytes: &[u8]) -> f64 {
    let begun = Instant::now();
    let mut cells = START;
    let mut at = 0;
    while at < bytes.len() {
        at += linked::record(&mut cells, &bytes[at..]) as usize;
    }
    assert_eq!(at, bytes.len(), "all are accepted");
    begun.elapsed().as_secs_f64()
}

fn program(program: &Path, file: &Path) -> f64 {
    let input = File::open(file).expect("the file");
    let begun = Instant::now();
    let output = Command::new(program)
        .stdin(input)
        .output()
        .expect("the program");
    assert!(output.stdout.len() > 100, "all are accepted");
    begun.elapsed().as_secs_f64()
}

/// The largest resident set, in KiB, as GNU time tells it.
fn peak(program: &Path, file: &Path) -> String {
    let input = File::open(file).expect("the file");
    let output = Command::new("/usr/bin/time")
        .args(["-f", "%M"])
        .arg(program)
        .stdin(input)
        .stdout(Stdio::null())
        .output()
        .expect("GNU time");
    String::from_utf8_lossy(&output.stderr).trim().to_owned()
}

/// Prints the three times, and answers whether the program reaches the bar beside the library's one call.
fn told(bytes: usize, count: usize, [program, whole, ones]: [f64; 3]) -> bool {
    println!("{bytes} bytes, {count} records, best of {ROUNDS} rounds");
    println!("| | MB/s | ns a record |\n|---|---:|---:|");
    for (name, seconds) in [
        ("the program, from a file", program),
        ("the library, in memory, in one call", whole),
        ("the library, in memory, a call a record", ones),
    ] {
        let speed = bytes as f64 / seconds / 1e6;
        println!(
            "| {name} | {speed:.1} | {:.0} |",
            seconds * 1e9 / count as f64
        );
    }
    let ratio = whole / program;
    println!(
        "ratio program / library: {ratio:.3} beside one call (the bar is {BAR}), {:.3} beside a call a record",
        ones / program
    );
    ratio >= BAR
}

/// The exit status is 1 if the bar isn't reached.
pub fn main(native: &Path) -> i32 {
    let file = std::env::temp_dir().join(format!("relate-bench-{}", std::process::id()));
    let (bytes, count) = mixed(100_000_000);
    let mut best = [f64::MAX; 3];
    fs::write(&file, &bytes[..]).expect("a file");
    for _ in 0..ROUNDS {
        best[0] = best[0].min(program(native, &file));
        if cfg!(linked) {
            best[1] = best[1].min(in_one_call(&bytes, count));
            best[2] = best[2].min(one_by_one(&bytes));
        }
    }
    let reached = told(bytes.len(), count, best);
    let large = peak(native, &file);
    fs::write(&file, mixed(10_000_000).0).expect("a file");
    println!(
        "peak memory in KiB: {} on 10 MB, {large} on 100 MB",
        peak(native, &file)
    );
    let _ = fs::remove_file(&file);
    i32::from(!reached)
}
