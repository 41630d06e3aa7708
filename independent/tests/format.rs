//! FORMAT.md: bytes, reading, digests, streams and listings.

mod common;

use common::*;
use independent::digest::{digest_of_bytes, state_bytes};
use independent::exchange::{Bounds, Exchange};
use independent::listing::list;
use independent::reading::{length, read, read_block, read_founding, Command, Volume};
use independent::sha256::{sha256, to_hex};
use independent::writing::write_all;

const WORKED: &[u8] = include_bytes!("data/worked.bin");

const WORKED_LISTING: &str = "\
K 0
K 1
R 0 1 0 0 0 0 0 0
A 1 1 960 49 0 0 0 0 0 0
A 2 1 100 800 0 0 0 0 0 0
A 3 1 0 100 0 0 0 0 0 0
O 0 1 98304 1 1 7
O 1 0 32768 2 1 50
D 4c0f6d8056c3bd5a2062aee33352f1ad964e0d4b9ebb1a728ab2256a8549c705
";

fn listing(stream: &[u8]) -> String {
    list(stream, Bounds::default())
}

/// The commands of the smallest block, which fits no replica.
fn smallest_commands() -> Vec<Command> {
    let mut commands = vec![Command::Begin { height: 1, parent: [0; 32] }];
    commands.extend((0..8).map(|asset| Command::Price { asset, price: 1 }));
    commands.push(Command::End);
    commands
}

/// The smallest block with commands put in before its end.
fn block_with(more: &[Command]) -> Vec<u8> {
    let mut commands = smallest_commands();
    let end = commands.len() - 1;
    commands.splice(end..end, more.iter().cloned());
    write_all(&commands)
}

#[test]
fn the_worked_example_prints_nine_lines() {
    assert_eq!(WORKED_LISTING.lines().count(), 9);
    assert_eq!(listing(WORKED), WORKED_LISTING);
}

#[test]
fn the_worked_example_is_the_block_by_hand() {
    let mut stream = founding(&hand_grants());
    let exchange = founded(Bounds::default(), &hand_grants());
    stream.extend(hand_draft(&exchange).bytes());
    assert_eq!(stream, WORKED);
}

#[test]
fn the_digests_of_the_worked_example() {
    let mut exchange = founded(Bounds::default(), &hand_grants());
    assert_eq!(
        to_hex(&exchange.digest()),
        "b643afbe80e41c5987e09203743444eea1e7ff3b5a85788612e2e2eb245f6803"
    );
    let block = hand_draft(&exchange).bytes();
    take(&mut exchange, &block);
    assert_eq!(
        to_hex(&exchange.digest()),
        "4c0f6d8056c3bd5a2062aee33352f1ad964e0d4b9ebb1a728ab2256a8549c705"
    );
}

#[test]
fn the_bytes_of_a_state() {
    let mut exchange = founded(Bounds::default(), &hand_grants());
    let block = hand_draft(&exchange).bytes();
    take(&mut exchange, &block);
    let bytes =
        state_bytes(exchange.height(), &exchange.remainders(), exchange.accounts(), exchange.offers());
    assert_eq!(bytes.len(), 1 + 4 + 8 * 8 + 4 + 3 * 72 + 4 + 2 * 22);
    assert_eq!(bytes[0], 0x53);
    assert_eq!(sha256(&bytes), exchange.digest());
}

#[test]
fn a_digest_of_bytes_ends_at_40000() {
    assert_eq!(digest_of_bytes(&[5; 40_000]), Ok(sha256(&[5; 40_000])));
    assert_eq!(digest_of_bytes(&[5; 40_001]), Err(fault(1, 0, 0)));
}

#[test]
fn highest_byte_first() {
    let bytes = write_all(&[Command::Price { asset: 0, price: 258 }]);
    assert_eq!(bytes, [b'P', 0, 0, 0, 1, 2]);
}

#[test]
fn widths_of_commands() {
    let cases: [(u8, usize); 9] = [
        (b'B', 37),
        (b'P', 6),
        (b'V', 11),
        (b'A', 13),
        (b'T', 38),
        (b'O', 23),
        (b'C', 19),
        (b'G', 69),
        (b'E', 1),
    ];
    for (letter, width) in cases {
        let mut bytes = vec![letter];
        bytes.resize(width, 0);
        if letter != b'E' {
            bytes.push(b'E');
            assert_eq!(length(&bytes), Ok(width + 1));
            assert_eq!(length(&bytes[..width - 1]), Err(fault(2, 0, 0)));
        }
        assert_eq!(length(&bytes[..width]).is_ok(), letter == b'E');
    }
}

#[test]
fn the_smallest_block() {
    let block = write_all(&smallest_commands());
    assert_eq!(block.len(), 86);
    assert!(read_block(&block).is_ok());
    assert_eq!(read_block(&block[..85]), Err(fault(2, 85, 0)));
    assert_eq!(length(&block), Ok(86));
    assert_eq!(length(&block[..85]), Err(fault(2, 85, 0)));
    assert_eq!(read_block(&[]), Err(fault(2, 0, 0)));
    // Cut in the last price, whose letter stands at 79.
    assert_eq!(read_block(&block[..84]), Err(fault(2, 79, 0)));
}

#[test]
fn a_founding_has_at_most_579_grants() {
    let grants: Vec<_> = (1..=580).map(|account| grant(account, &[1])).collect();
    let most = founding(&grants[..579]);
    assert_eq!(most.len(), 39_952);
    assert_eq!(read_founding(&most).unwrap().grants.len(), 579);
    assert_eq!(read_founding(&founding(&grants)), Err(fault(1, 0, 0)));
}

#[test]
fn fault_1_is_first() {
    assert_eq!(read_block(&[b'?'; 40_001]), Err(fault(1, 0, 0)));
    assert_eq!(read_block(&[b'?'; 40_000]), Err(fault(3, 0, 0)));
    assert_eq!(read_founding(&[b'?'; 40_001]), Err(fault(1, 0, 0)));
}

#[test]
fn fault_3_comes_before_2_and_both_before_4() {
    assert_eq!(read_block(b"X"), Err(fault(3, 0, 0)));
    assert_eq!(read_block(b"b"), Err(fault(3, 0, 0)));
    // A grant may not stand here, but it is cut.
    assert_eq!(read_block(b"G123"), Err(fault(2, 0, 0)));
    assert_eq!(read_block(&founding(&[grant(1, &[])])), Err(fault(4, 0, 0)));
    assert_eq!(read_block(b"E"), Err(fault(4, 0, 0)));
}

#[test]
fn turns_of_a_block() {
    let good = smallest_commands();
    // One price missing, twice, or two exchanged.
    let mut missing = good.clone();
    missing.remove(4);
    assert_eq!(read_block(&write_all(&missing)), Err(fault(4, 37 + 3 * 6, 0)));
    let mut twice = good.clone();
    twice.insert(1, good[1].clone());
    assert_eq!(read_block(&write_all(&twice)), Err(fault(4, 43, 0)));
    let mut odd = good.clone();
    odd[1] = Command::Price { asset: 9, price: 0 };
    assert_eq!(read_block(&write_all(&odd)), Err(fault(4, 37, 0)));
    // The price due, but out of range.
    odd[1] = Command::Price { asset: 0, price: 0 };
    assert_eq!(read_block(&write_all(&odd)), Err(fault(5, 37, 0)));
    // No volume after a transaction, no second beginning, no grant.
    let transaction = Command::Transaction(create(1, 1, 2));
    let volume = Command::Volume(volume(0, 1, 1));
    assert!(read_block(&block_with(&[volume.clone(), transaction.clone()])).is_ok());
    assert_eq!(read_block(&block_with(&[transaction, volume])), Err(fault(4, 85 + 13, 0)));
    let begin = good[0].clone();
    assert_eq!(read_block(&block_with(&[begin])), Err(fault(4, 85, 0)));
    let grant = Command::Grant(grant(0, &[]));
    assert_eq!(read_block(&block_with(&[grant])), Err(fault(4, 85, 0)));
}

#[test]
fn pairs_of_volumes_rise_as_they_stand() {
    let with = |pairs: &[(u8, u8)]| {
        let volumes: Vec<Command> =
            pairs.iter().map(|(sold, bought)| Command::Volume(volume(*sold, *bought, 1))).collect();
        read_block(&block_with(&volumes))
    };
    assert!(with(&[(0, 1), (0, 2), (1, 0), (7, 6)]).is_ok());
    assert_eq!(with(&[(0, 1), (0, 1)]), Err(fault(4, 96, 0)));
    assert_eq!(with(&[(1, 0), (0, 7)]), Err(fault(4, 96, 0)));
    // In turn, but out of range.
    assert_eq!(with(&[(0, 1), (8, 0)]), Err(fault(5, 96, 0)));
    assert_eq!(with(&[(0, 0)]), Err(fault(5, 85, 0)));
    assert_eq!(with(&[(0, 8)]), Err(fault(5, 85, 0)));
    // Out of turn and out of range.
    assert_eq!(with(&[(1, 0), (0, 8)]), Err(fault(4, 96, 0)));
}

#[test]
fn turns_of_a_founding() {
    assert!(read_founding(b"E").is_ok());
    assert_eq!(read_founding(b""), Err(fault(2, 0, 0)));
    assert_eq!(read_founding(&write_all(&smallest_commands())), Err(fault(4, 0, 0)));
    let mut bytes = founding(&[grant(1, &[1]), grant(2, &[2])]);
    assert_eq!(read_founding(&bytes[..138]), Err(fault(2, 138, 0)));
    bytes[69] = b'O';
    assert_eq!(read_founding(&bytes), Err(fault(4, 69, 0)));
}

#[test]
fn ranges_of_operands() {
    let ok = |command: Command| {
        let bytes = write_all(std::slice::from_ref(&command));
        match read(&bytes, 0) {
            Ok((same, after)) => {
                assert_eq!((same, after), (command, bytes.len()));
                true
            }
            Err(given) => {
                assert_eq!(given, fault(5, 0, 0));
                false
            }
        }
    };
    let price = |asset, price| Command::Price { asset, price };
    assert!(ok(price(7, 1)) && ok(price(0, 16_777_215)));
    assert!(!ok(price(8, 1)) && !ok(price(0, 0)) && !ok(price(0, 16_777_216)));
    let sold = |amount| Command::Volume(volume(0, 1, amount));
    assert!(ok(sold(1)) && ok(sold(TOP)) && !ok(sold(0)) && !ok(sold(TOP + 1)) && !ok(sold(u64::MAX)));
    assert!(ok(Command::Grant(grant(1, &[0, TOP]))) && ok(Command::Grant(grant(u32::MAX, &[]))));
    assert!(!ok(Command::Grant(grant(0, &[]))) && !ok(Command::Grant(grant(1, &[TOP + 1]))));
    let transaction = |t| Command::Transaction(t);
    for sequence in [0, u32::MAX] {
        assert!(ok(transaction(create(u32::MAX, sequence, u32::MAX))));
        assert!(ok(transaction(cancel(1, sequence, (0, 1), 1, sequence))));
    }
    assert!(!ok(transaction(create(0, 1, 1))) && !ok(transaction(create(1, 1, 0))));
    assert!(ok(transaction(pay(1, 1, 1, 7, TOP))));
    assert!(!ok(transaction(pay(0, 1, 1, 7, 1))) && !ok(transaction(pay(1, 1, 0, 7, 1))));
    assert!(!ok(transaction(pay(1, 1, 1, 8, 1))) && !ok(transaction(pay(1, 1, 1, 7, 0))));
    assert!(!ok(transaction(pay(1, 1, 1, 7, TOP + 1))));
    assert!(ok(transaction(offer(1, 1, (0, 7), 1, 1))));
    assert!(ok(transaction(offer(1, 1, (7, 0), 4_294_967_295, TOP))));
    assert!(!ok(transaction(offer(0, 1, (0, 1), 1, 1))) && !ok(transaction(offer(1, 1, (0, 1), 0, 1))));
    assert!(!ok(transaction(offer(1, 1, (2, 2), 1, 1))) && !ok(transaction(offer(1, 1, (8, 2), 1, 1))));
    assert!(!ok(transaction(offer(1, 1, (2, 8), 1, 1))) && !ok(transaction(offer(1, 1, (0, 1), 1, 0))));
    assert!(!ok(transaction(offer(1, 1, (0, 1), 1, TOP + 1))));
    assert!(!ok(transaction(cancel(0, 1, (0, 1), 1, 1))) && !ok(transaction(cancel(1, 1, (0, 1), 0, 1))));
    assert!(!ok(transaction(cancel(1, 1, (3, 3), 1, 1))) && !ok(transaction(cancel(1, 1, (0, 9), 1, 1))));
}

#[test]
fn transaction_1025() {
    let with = |count: usize| {
        let transactions: Vec<Command> =
            (0..count).map(|n| Command::Transaction(create(1, n as u32, 2))).collect();
        block_with(&transactions)
    };
    assert_eq!(read_block(&with(1_024)).unwrap().transactions.len(), 1_024);
    let place = 85 + 1_024 * 13;
    assert_eq!(read_block(&with(1_025)), Err(fault(6, place as u64, 0)));
    // 5 comes before 6 at the same command.
    let mut bytes = with(1_025);
    bytes[place + 1..place + 5].fill(0);
    assert_eq!(read_block(&bytes), Err(fault(5, place as u64, 0)));
    // 6 comes before what is wrong later.
    let mut bytes = with(1_026);
    bytes[place + 13] = b'?';
    assert_eq!(read_block(&bytes), Err(fault(6, place as u64, 0)));
}

#[test]
fn bytes_after_the_end() {
    let mut block = write_all(&smallest_commands());
    block.push(b'E');
    assert_eq!(read_block(&block), Err(fault(7, 86, 0)));
    assert_eq!(read_founding(b"E?"), Err(fault(7, 1, 0)));
}

#[test]
fn read_looks_at_one_command_only() {
    let bytes = write_all(&[Command::End, Command::Volume(Volume { sold: 3, bought: 2, amount: 5 })]);
    assert_eq!(read(&bytes, 0), Ok((Command::End, 1)));
    assert_eq!(read(&bytes, 1), Ok((Command::Volume(volume(3, 2, 5)), 12)));
    assert_eq!(read(&bytes, 2), Err(fault(3, 2, 0)));
    assert_eq!(read(&bytes, 12), Err(fault(2, 12, 0)));
    assert_eq!(read(&bytes, 500), Err(fault(2, 500, 0)));
    assert_eq!(read(&bytes[..11], 1), Err(fault(2, 1, 0)));
}

#[test]
fn length_looks_at_letters_and_widths_only() {
    assert_eq!(length(b"EXYZ"), Ok(1));
    assert_eq!(length(b""), Err(fault(2, 0, 0)));
    assert_eq!(length(b"x"), Err(fault(3, 0, 0)));
    // Out of turn, out of range, and an E among the operands.
    let bytes = b"P\xffEEEEE";
    assert_eq!(length(bytes), Ok(7));
    let mut long = b"PEEEEE".repeat(8_000);
    long.push(b'E');
    assert_eq!(length(&long), Ok(48_001));
}

#[test]
fn streams_that_end_early() {
    assert_eq!(listing(b""), "N 2 0 0\n");
    assert_eq!(listing(b"?"), "N 3 0 0\n");
    assert_eq!(listing(b"G"), "N 2 0 0\n");
    // A refused founding ends the reading.
    assert_eq!(listing(b"P12345EEEE"), "N 4 0 0\n");
    let twice = founding(&[grant(5, &[1]), grant(5, &[2])]);
    assert_eq!(listing(&[&twice[..], b"E"].concat()), "N 15 5 0\n");
}

#[test]
fn a_founding_without_grants_is_good() {
    let exchange = founded(Bounds::default(), &[]);
    let digest = to_hex(&exchange.digest());
    assert_eq!(listing(b"E"), format!("K 0\nR 0 0 0 0 0 0 0 0\nD {digest}\n"));
}

#[test]
fn the_reading_goes_on_after_a_refused_block_and_ends_at_a_bad_length() {
    let exchange = founded(Bounds::default(), &[]);
    let mut stream = b"E".to_vec();
    stream.extend(b"E");
    stream.extend(next(&exchange).bytes());
    stream.extend(b"E?");
    let text = listing(&stream);
    let lines: Vec<&str> = text.lines().collect();
    assert_eq!(lines[..5], ["K 0", "N 4 0 0", "K 1", "N 4 0 0", "N 3 0 0"]);
    assert_eq!(lines[5], "R 0 0 0 0 0 0 0 0");
    assert!(lines[6].starts_with("D "));
    assert_eq!(lines.len(), 7);
}

#[test]
fn the_longest_input() {
    let mut stream = vec![b'E'; 65_536];
    assert_eq!(listing(&stream).lines().count(), 65_536 + 2);
    stream.push(b'E');
    assert_eq!(listing(&stream), "N 1 0 0\n");
}

#[test]
fn a_piece_of_more_than_40000_bytes_in_a_stream() {
    let mut stream = b"E".to_vec();
    stream.extend(b"PEEEEE".repeat(6_700));
    stream.extend(b"EE");
    let text = listing(&stream);
    let lines: Vec<&str> = text.lines().collect();
    assert_eq!(lines[..3], ["K 0", "N 1 0 0", "N 4 0 0"]);
}

#[test]
fn an_unfounded_replica_has_zeros() {
    let exchange = Exchange::new(Bounds::default());
    assert_eq!(exchange.digest(), [0; 32]);
    assert_eq!(exchange.height(), 0);
    assert!(!exchange.founded());
}
