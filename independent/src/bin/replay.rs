//! `replay FILE [--accounts N] [--top N] [--offers N] [--time]`: the listing
//! of a file of any size, and a last line `C passed committed lapsed rejected`.

use std::io::Write;
use std::process::ExitCode;
use std::{env, fs, io};

use independent::exchange::Bounds;
use independent::listing::{lines_of_state, walk, Walk};

const USAGE: &str = "replay FILE [--accounts N] [--top N] [--offers N] [--time]";

struct Order {
    file: String,
    bounds: Bounds,
    time: bool,
}

fn main() -> ExitCode {
    match read_order().and_then(|order| run(&order)) {
        Ok(()) => ExitCode::SUCCESS,
        Err(text) => {
            eprintln!("{text}");
            ExitCode::from(2)
        }
    }
}

fn read_order() -> Result<Order, String> {
    let mut file = None;
    let mut bounds = Bounds::default();
    let mut time = false;
    let mut words = env::args().skip(1);
    while let Some(word) = words.next() {
        match word.as_str() {
            "--accounts" => bounds.account_capacity = number(words.next())?,
            "--top" => bounds.top = number(words.next())?,
            "--offers" => bounds.offer_capacity = number(words.next())?,
            "--time" => time = true,
            _ if file.is_none() => file = Some(word),
            _ => return Err(USAGE.to_string()),
        }
    }
    let file = file.ok_or(USAGE)?;
    Ok(Order { file, bounds, time })
}

fn number<T: std::str::FromStr>(word: Option<String>) -> Result<T, String> {
    word.and_then(|word| word.parse().ok()).ok_or(USAGE.to_string())
}

fn run(order: &Order) -> Result<(), String> {
    let stream = fs::read(&order.file).map_err(|error| format!("{}: {error}", order.file))?;
    let walk = walk(&stream, order.bounds);
    io::stdout().lock().write_all(text_of(&walk).as_bytes()).map_err(|error| error.to_string())?;
    if order.time {
        eprintln!("{:.6} seconds in check and commit, {} blocks", walk.time.as_secs_f64(), walk.blocks);
    }
    Ok(())
}

fn text_of(walk: &Walk) -> String {
    let counts = walk.exchange.counts();
    format!(
        "{}{}C {} {} {} {}\n",
        walk.lines,
        lines_of_state(&walk.exchange),
        counts.passed,
        counts.committed,
        counts.lapsed,
        counts.rejected
    )
}
