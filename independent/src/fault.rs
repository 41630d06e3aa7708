//! A fault: why a call was refused (RULES.md, section 7).

/// A number and two places. The order of the fields is the order in which
/// faults are compared, so the least fault is simply the minimum.
#[derive(Clone, Copy, Debug, PartialEq, Eq, PartialOrd, Ord)]
pub struct Fault {
    pub number: u32,
    pub first: u64,
    pub second: u64,
}

impl Fault {
    /// A fault with both places.
    pub fn at(number: u32, first: u64, second: u64) -> Fault {
        Fault { number, first, second }
    }

    /// A fault without places.
    pub fn plain(number: u32) -> Fault {
        Fault::at(number, 0, 0)
    }

    /// A fault at a byte.
    pub fn byte(number: u32, place: usize) -> Fault {
        Fault::at(number, place as u64, 0)
    }

    /// A fault of a transaction, named by its source and sequence number.
    pub fn transaction(number: u32, name: (u32, u32)) -> Fault {
        Fault::at(number, u64::from(name.0), u64::from(name.1))
    }
}

/// The smaller of the least fault found so far and one more.
pub fn keep_least(least: &mut Option<Fault>, found: Fault) {
    match least {
        Some(old) if *old <= found => {}
        _ => *least = Some(found),
    }
}
