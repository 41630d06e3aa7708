//! `generate SEED KIND [..]`: writes a made stream to standard output.
//!
//! - `generate SEED small`
//! - `generate SEED faulty [1..21 | founding-15 | founding-19 | founding-23 | edges]`
//! - `generate SEED damaged`
//! - `generate SEED full BLOCKS` and `generate SEED quarter BLOCKS`
//! - `generate SEED twin PATH PATH` (writes two files)

use std::io::Write;
use std::process::ExitCode;
use std::{env, fs, io};

use independent::making::{full, small};
use independent::spoiling::{damaged, faulty, twin, Aim};

const USAGE: &str = "generate SEED small | faulty [1..21, founding-15, founding-19, founding-23, edges] | \
damaged | full BLOCKS | quarter BLOCKS | twin PATH PATH";

fn main() -> ExitCode {
    let words: Vec<String> = env::args().skip(1).collect();
    let words: Vec<&str> = words.iter().map(String::as_str).collect();
    match run(&words) {
        Ok(()) => ExitCode::SUCCESS,
        Err(text) => {
            eprintln!("{text}");
            ExitCode::from(2)
        }
    }
}

fn run(words: &[&str]) -> Result<(), String> {
    let (seed, order) = words.split_first().ok_or(USAGE)?;
    let seed = number(seed)?;
    let stream = match order {
        ["small"] => small(seed),
        ["faulty"] => faulty(seed, None),
        ["faulty", aim] => faulty(seed, Some(aim_of(aim)?)),
        ["damaged"] => damaged(seed),
        ["full", blocks] => full(seed, number(blocks)?, 1_024),
        ["quarter", blocks] => full(seed, number(blocks)?, 256),
        ["twin", first, second] => return write_twins(seed, first, second),
        _ => return Err(USAGE.to_string()),
    };
    io::stdout().lock().write_all(&stream).map_err(|error| error.to_string())
}

fn number(word: &str) -> Result<u64, String> {
    word.parse().map_err(|_| USAGE.to_string())
}

fn aim_of(word: &str) -> Result<Aim, String> {
    match word {
        "founding-15" => Ok(Aim::Founding(15)),
        "founding-19" => Ok(Aim::Founding(19)),
        "founding-23" | "23" => Ok(Aim::Founding(23)),
        "edges" => Ok(Aim::Edges),
        _ => match number(word)? {
            block @ 1..=21 => Ok(Aim::Block(block as u32)),
            _ => Err(USAGE.to_string()),
        },
    }
}

fn write_twins(seed: u64, first: &str, second: &str) -> Result<(), String> {
    let (stream, other) = twin(seed);
    fs::write(first, stream).map_err(|error| format!("{first}: {error}"))?;
    fs::write(second, other).map_err(|error| format!("{second}: {error}"))
}
