//! A stream and its listing (FORMAT.md, section 5).

use std::fmt::Write;
use std::time::{Duration, Instant};

use crate::exchange::{Bounds, Exchange};
use crate::fault::Fault;
use crate::reading::length;
use crate::sha256::to_hex;

/// The longest input that `list` takes.
pub const MOST_INPUT: usize = 65_536;

/// What came of a stream.
pub struct Walk {
    /// The K and N lines.
    pub lines: String,
    /// The replica after the last piece.
    pub exchange: Exchange,
    /// The time spent in check and commit together.
    pub time: Duration,
    /// How many blocks were checked.
    pub blocks: u64,
}

/// The listing of a stream, as the program `list` prints it.
pub fn list(stream: &[u8], bounds: Bounds) -> String {
    if stream.len() > MOST_INPUT {
        return line_of_fault(Fault::plain(1));
    }
    let walk = walk(stream, bounds);
    let state = lines_of_state(&walk.exchange);
    walk.lines + &state
}

/// Takes a stream of any size through a new replica. Each block is checked
/// and, if it passes, committed at once.
pub fn walk(stream: &[u8], bounds: Bounds) -> Walk {
    let mut walk =
        Walk { lines: String::new(), exchange: Exchange::new(bounds), time: Duration::ZERO, blocks: 0 };
    let mut rest = stream;
    // A stream begins with a founding, so a piece is due at the start even if
    // there are no bytes.
    while !walk.exchange.founded() || !rest.is_empty() {
        match length(rest) {
            Err(fault) => {
                walk.lines += &line_of_fault(fault);
                break;
            }
            Ok(end) => {
                let (piece, after) = rest.split_at(end);
                rest = after;
                if !walk.take(piece) {
                    break;
                }
            }
        }
    }
    walk
}

impl Walk {
    /// Takes one piece. False if the reading ends here.
    fn take(&mut self, piece: &[u8]) -> bool {
        let outcome =
            if self.exchange.founded() { self.check_and_commit(piece) } else { self.exchange.found(piece) };
        self.lines += &match outcome {
            Ok(()) => format!("K {}\n", self.exchange.height()),
            Err(fault) => line_of_fault(fault),
        };
        self.exchange.founded()
    }

    fn check_and_commit(&mut self, piece: &[u8]) -> Result<(), Fault> {
        self.blocks += 1;
        let start = Instant::now();
        let outcome = match self.exchange.check(piece) {
            Ok(checked) => self.exchange.commit(checked),
            Err(fault) => Err(fault),
        };
        self.time += start.elapsed();
        outcome
    }
}

/// `N number first second`.
pub fn line_of_fault(fault: Fault) -> String {
    format!("N {} {} {}\n", fault.number, fault.first, fault.second)
}

/// The lines R, A, O and D of a founded replica; nothing of another.
pub fn lines_of_state(exchange: &Exchange) -> String {
    let mut text = String::new();
    if !exchange.founded() {
        return text;
    }
    text.push('R');
    add_numbers(&mut text, &exchange.remainders());
    for (number, account) in exchange.accounts() {
        write!(text, "A {} {}", number, account.floor).expect("a string takes all");
        add_numbers(&mut text, &account.balances);
    }
    for (key, amount) in exchange.offers() {
        writeln!(
            text,
            "O {} {} {} {} {} {}",
            key.sold, key.bought, key.limit, key.account, key.sequence, amount
        )
        .expect("a string takes all");
    }
    text + "D " + &to_hex(&exchange.digest()) + "\n"
}

/// Numbers with a space before each, and the end of the line.
fn add_numbers(text: &mut String, numbers: &[u64]) {
    for number in numbers {
        write!(text, " {number}").expect("a string takes all");
    }
    text.push('\n');
}
