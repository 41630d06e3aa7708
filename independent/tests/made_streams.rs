//! The made streams: what they are meant to be, and what the rules promise
//! about every stream (RULES.md, section 8).

use std::collections::BTreeSet;

use independent::exchange::{Bounds, Checked, Exchange, Key};
use independent::listing::{list, walk};
use independent::making::{full, small};
use independent::reading::{length, read_block, read_founding, Action, Block, Transaction};
use independent::spoiling::{damaged, faulty, twin, Aim};

/// The pieces of a stream.
fn pieces(stream: &[u8]) -> Vec<&[u8]> {
    let mut all = Vec::new();
    let mut rest = stream;
    while let Ok(end) = length(rest) {
        let (piece, after) = rest.split_at(end);
        all.push(piece);
        rest = after;
    }
    all
}

fn count_of(listing: &str, start: &str) -> usize {
    listing.lines().filter(|line| line.starts_with(start)).count()
}

#[test]
fn small_streams_are_good_and_trade() {
    let mut blocks = 0;
    let mut with_trade = 0;
    let mut with_three_pairs = 0;
    for seed in 0..300 {
        let stream = small(seed);
        let listing = list(&stream, Bounds::default());
        assert_eq!(count_of(&listing, "N"), 0, "seed {seed}: {listing}");
        for piece in &pieces(&stream)[1..] {
            let block = read_block(piece).unwrap();
            blocks += 1;
            with_trade += usize::from(!block.volumes.is_empty());
            with_three_pairs += usize::from(block.volumes.len() >= 3);
        }
    }
    assert!(with_trade * 2 > blocks, "{with_trade} of {blocks} blocks trade");
    assert!(with_three_pairs * 6 > blocks, "{with_three_pairs} of {blocks} trade in three pairs");
}

#[test]
fn every_fault_that_a_stream_can_show_is_made() {
    let mut seen = BTreeSet::new();
    for number in 1..=21 {
        for seed in 0..40 {
            note_faults(&faulty(seed, Some(Aim::Block(number))), &mut seen);
        }
    }
    for number in [15, 19, 23] {
        for seed in 0..20 {
            note_faults(&faulty(seed, Some(Aim::Founding(number))), &mut seen);
        }
    }
    // A piece ends with its end command, so 7 cannot come; and the store and
    // the book of a new replica are empty, so 22 cannot.
    let all: BTreeSet<u32> = (1..=23).filter(|number| ![7, 22].contains(number)).collect();
    assert_eq!(seen, all);
}

fn note_faults(stream: &[u8], seen: &mut BTreeSet<u32>) {
    for line in list(stream, Bounds::default()).lines() {
        let mut words = line.split(' ');
        if words.next() == Some("N") {
            seen.insert(words.next().unwrap().parse().unwrap());
        }
    }
}

#[test]
fn full_streams_are_full() {
    for transactions in [1_024, 256] {
        let stream = full(1, 12, transactions);
        let walk = walk(&stream, Bounds::default());
        assert_eq!(walk.exchange.height(), 12);
        assert_eq!(walk.exchange.accounts().len(), 256);
        assert!(walk.exchange.offers().len() > 900, "{}", walk.exchange.offers().len());
        for piece in &pieces(&stream)[1..] {
            assert_eq!(read_block(piece).unwrap().transactions.len(), transactions);
        }
    }
}

#[test]
fn the_same_seed_gives_the_same_stream() {
    assert_eq!(small(7), small(7));
    assert_eq!(faulty(7, None), faulty(7, None));
    assert_eq!(damaged(7), damaged(7));
}

#[test]
fn twins_print_the_same() {
    let mut different = 0;
    for seed in 0..300 {
        let (stream, other) = twin(seed);
        different += usize::from(stream != other);
        assert_eq!(list(&stream, Bounds::default()), list(&other, Bounds::default()), "seed {seed}");
    }
    assert!(different > 200, "{different}");
}

#[test]
fn amounts_are_kept_over_any_stream() {
    for seed in 0..150 {
        for stream in [small(seed), faulty(seed, None), damaged(seed)] {
            let pieces = pieces(&stream);
            let Some(Ok(founding)) = pieces.first().map(|piece| read_founding(piece)) else {
                continue;
            };
            let mut exchange = Exchange::new(Bounds::default());
            if exchange.found(pieces[0]).is_err() {
                continue;
            }
            for piece in &pieces[1..] {
                step_with_promises(&mut exchange, piece);
                for asset in 0..8u8 {
                    let founded: u64 =
                        founding.grants.iter().map(|grant| grant.balances[usize::from(asset)]).sum();
                    assert_eq!(exchange.amount_of(asset), founded, "seed {seed}");
                }
            }
        }
    }
}

/// Takes a block, and tests the fills against what the commit does.
fn step_with_promises(exchange: &mut Exchange, piece: &[u8]) {
    let Ok(checked) = exchange.check(piece) else {
        return;
    };
    let block = read_block(piece).unwrap();
    let fills = all_fills(exchange, &checked, &block);
    let before = exchange.clone();
    exchange.commit(checked).unwrap();
    for (key, amount, sold, paid) in &fills {
        let left = exchange.offers().get(key).copied().unwrap_or(0);
        assert_eq!(left, amount - sold);
        let asked = u128::from(*sold) * u128::from(key.limit) / 65_536;
        assert!(u128::from(*paid) >= asked);
    }
    for volume in &block.volumes {
        let sold: u64 = fills
            .iter()
            .filter(|(key, ..)| (key.sold, key.bought) == (volume.sold, volume.bought))
            .map(|fill| fill.2)
            .sum();
        assert_eq!(sold, volume.amount);
    }
    test_order_of_fills(&fills);
    assert_eq!(exchange.height(), before.height() + 1);
}

/// Key, amount, units sold and units paid of each offer in trade, by key.
fn all_fills(exchange: &Exchange, checked: &Checked, block: &Block) -> Vec<(Key, u64, u64, u64)> {
    let mut offers = exchange.offers().clone();
    for Transaction { source, sequence, action } in &block.transactions {
        let (account, sequence) = (*source, *sequence);
        match *action {
            Action::Offer { sold, bought, limit, amount } => {
                offers.insert(Key { sold, bought, limit, account, sequence }, amount);
            }
            Action::Cancel { sold, bought, limit, offered } => {
                let key = Key { sold, bought, limit, account, sequence: offered };
                offers.remove(&key);
                // A cancelled offer is not filled.
                assert_eq!(exchange.fill(checked, key), Ok((0, 0)));
            }
            _ => {}
        }
    }
    offers
        .into_iter()
        .map(|(key, amount)| {
            let (sold, paid) = exchange.fill(checked, key).unwrap();
            (key, amount, sold, paid)
        })
        .collect()
}

/// Within a pair, nothing is sold after an offer that was not sold whole.
fn test_order_of_fills(fills: &[(Key, u64, u64, u64)]) {
    for two in fills.windows(2) {
        let (low, high) = (&two[0], &two[1]);
        if (low.0.sold, low.0.bought) == (high.0.sold, high.0.bought) && high.2 > 0 {
            assert_eq!(low.1, low.2);
        }
    }
}
