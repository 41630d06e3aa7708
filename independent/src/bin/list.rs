//! `list`: reads a stream from standard input and prints its listing.

use std::io::{self, Read, Write};

use independent::exchange::Bounds;
use independent::listing::{list, MOST_INPUT};

fn main() -> io::Result<()> {
    let mut stream = Vec::new();
    // One byte more than the longest input is enough to see that it is too long.
    io::stdin().lock().take(MOST_INPUT as u64 + 1).read_to_end(&mut stream)?;
    io::stdout().lock().write_all(list(&stream, Bounds::default()).as_bytes())
}
