//! `compare LIST_PROGRAM COUNT SEED`: feeds made streams to another program
//! and compares its output, byte by byte, with the listing of this one.
//!
//! The exit status is 1 on any difference, or if the other program ends by a
//! signal or with a status other than 0; and 2 if the order cannot be read.

use std::io::{Read, Write};
use std::process::{Child, Command, ExitCode, Stdio};
use std::{env, fs, thread};

use independent::exchange::Bounds;
use independent::listing::list;
use independent::making::small;
use independent::spoiling::{damaged, faulty};

const USAGE: &str = "compare LIST_PROGRAM COUNT SEED";
const HIGHEST_FAULT: usize = 23;

/// What is counted over all streams.
#[derive(Default)]
struct Tally {
    streams: u64,
    differences: u64,
    faults: [u64; HIGHEST_FAULT + 1],
    committed: u64,
    founded: u64,
}

fn main() -> ExitCode {
    let words: Vec<String> = env::args().skip(1).collect();
    let order = match &words[..] {
        [program, count, seed] => (program, count.parse::<u64>(), seed.parse::<u64>()),
        _ => return complain(USAGE),
    };
    let (program, Ok(count), Ok(seed)) = order else {
        return complain(USAGE);
    };
    let mut tally = Tally::default();
    for place in 0..count {
        compare_one(program, seed.wrapping_add(place), &mut tally);
    }
    report(&tally);
    if tally.differences == 0 {
        ExitCode::SUCCESS
    } else {
        ExitCode::from(1)
    }
}

fn complain(text: &str) -> ExitCode {
    eprintln!("{text}");
    ExitCode::from(2)
}

/// The stream of a seed and its kind: of ten, four are small, four faulty and
/// two damaged.
fn stream_of(seed: u64) -> (&'static str, Vec<u8>) {
    match seed % 10 {
        0 | 2 | 4 | 6 => ("small", small(seed)),
        8 | 9 => ("damaged", damaged(seed)),
        _ => ("faulty", faulty(seed, None)),
    }
}

fn compare_one(program: &str, seed: u64, tally: &mut Tally) {
    let (kind, stream) = stream_of(seed);
    let expected = list(&stream, Bounds::default());
    tally.streams += 1;
    count_lines(&expected, tally);
    let trouble = match run(program, &stream) {
        Err(text) => Some(text),
        Ok(output) if output != expected.as_bytes() => Some("the listings differ".to_string()),
        Ok(_) => None,
    };
    if let Some(text) = trouble {
        tally.differences += 1;
        let path = format!("/tmp/compare-{seed}.bin");
        let kept = fs::write(&path, &stream).map_or_else(|error| error.to_string(), |()| path);
        println!("difference: seed {seed}, {kind}: {text}; stream in {kept}");
    }
}

/// Counts the K and N lines of a listing.
fn count_lines(listing: &str, tally: &mut Tally) {
    for line in listing.lines() {
        let mut words = line.split(' ');
        match (words.next(), words.next()) {
            (Some("K"), Some("0")) => tally.founded += 1,
            (Some("K"), _) => tally.committed += 1,
            (Some("N"), Some(number)) => {
                if let Some(count) = number.parse().ok().and_then(|n: usize| tally.faults.get_mut(n)) {
                    *count += 1;
                }
            }
            _ => {}
        }
    }
}

/// Runs the other program on a stream and gives what it printed.
fn run(program: &str, stream: &[u8]) -> Result<Vec<u8>, String> {
    let mut child = Command::new(program)
        .stdin(Stdio::piped())
        .stdout(Stdio::piped())
        .spawn()
        .map_err(|error| format!("{program}: {error}"))?;
    let output = feed_and_read(&mut child, stream);
    let status = child.wait().map_err(|error| error.to_string())?;
    if !status.success() {
        return Err(format!("the program ended with {status}"));
    }
    output
}

/// Writes the input in a thread of its own, so that neither side waits for the
/// other. A program that stops reading early is no trouble by itself.
fn feed_and_read(child: &mut Child, stream: &[u8]) -> Result<Vec<u8>, String> {
    let mut input = child.stdin.take().ok_or("no standard input")?;
    let mut printed = child.stdout.take().ok_or("no standard output")?;
    thread::scope(|scope| {
        scope.spawn(move || {
            let _ = input.write_all(stream);
        });
        let mut output = Vec::new();
        printed.read_to_end(&mut output).map_err(|error| error.to_string())?;
        Ok(output)
    })
}

fn report(tally: &Tally) {
    println!("streams compared: {}", tally.streams);
    println!("differences: {}", tally.differences);
    println!("foundings: {}", tally.founded);
    println!("blocks committed: {}", tally.committed);
    println!("faults by number:");
    for (number, count) in tally.faults.iter().enumerate().skip(1) {
        println!("  {number} {count}");
    }
}
