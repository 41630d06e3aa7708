//! RULES.md: trade, the life of a replica, and what is refused.

mod common;

use common::*;
use independent::exchange::{Account, Accounts, Bounds, Counts, Exchange, Offers};
use independent::reading::{Grant, Transaction};

/// Three accounts with 1,000 of each asset.
fn three() -> Exchange {
    let grants: Vec<Grant> = (1..=3).map(|account| grant(account, &[1_000; 8])).collect();
    founded(Bounds::default(), &grants)
}

/// `three` with one resting offer of account 1: 100 of asset 0 for asset 1, at 65,536.
fn three_and_offer() -> Exchange {
    let mut exchange = three();
    let block = next_with(&exchange, &[offer(1, 1, (0, 1), 65_536, 100)]);
    take(&mut exchange, &block);
    exchange
}

fn fault_of(exchange: &mut Exchange, transactions: &[Transaction]) -> (u32, u64, u64) {
    let block = next_with(exchange, transactions);
    let fault = refused(exchange, &block);
    // The order in which transactions stand does not matter.
    let mut turned = transactions.to_vec();
    turned.reverse();
    let block = next_with(exchange, &turned);
    assert_eq!(refused(exchange, &block), fault);
    (fault.number, fault.first, fault.second)
}

fn passes(exchange: &mut Exchange, transactions: &[Transaction]) {
    let block = next_with(exchange, transactions);
    let checked = exchange.check(&block).unwrap();
    exchange.reject(checked);
}

fn counts(passed: u32, committed: u32, lapsed: u32, rejected: u32) -> Counts {
    Counts { passed, committed, lapsed, rejected }
}

// Section 1.

#[test]
fn keys_are_compared_by_five_in_turn() {
    let rising = [
        key(0, 1, 1, 1, 1),
        key(0, 1, 1, 1, 2),
        key(0, 1, 1, 2, 0),
        key(0, 1, 2, 1, 0),
        key(0, 2, 1, 1, 0),
        key(1, 0, 1, 1, 0),
    ];
    assert!(rising.windows(2).all(|two| two[0] < two[1]));
}

// Sections 2 and 3, as far as the replica shows them.

#[test]
fn a_store_of_no_slots_works() {
    let bounds = Bounds { account_capacity: 0, ..Bounds::default() };
    let mut exchange = founded(bounds, &[]);
    let block = next(&exchange).bytes();
    take(&mut exchange, &block);
    assert_eq!(exchange.height(), 1);
    let mut exchange = Exchange::new(bounds);
    assert_eq!(exchange.found(&founding(&[grant(1, &[])])), Err(fault(19, 0, 0)));
}

#[test]
fn the_trie_of_2047_nodes_holds_1024_offers() {
    assert_eq!(2_047usize.div_ceil(2), Bounds::default().offer_capacity);
    assert_eq!(131_071usize.div_ceil(2), independent::exchange::MOST_CAPACITY);
}

// Section 5: the block by hand.

#[test]
fn the_block_by_hand() {
    let mut exchange = founded(Bounds::default(), &hand_grants());
    let block = hand_draft(&exchange).bytes();
    let checked = exchange.check(&block).unwrap();
    assert_eq!(exchange.fill(&checked, key(0, 1, 65_536, 3, 1)), Ok((67, 100)));
    assert_eq!(exchange.fill(&checked, key(0, 1, 98_304, 1, 1)), Ok((33, 49)));
    assert_eq!(exchange.fill(&checked, key(1, 0, 32_768, 2, 1)), Ok((150, 100)));
    exchange.commit(checked).unwrap();
    assert_eq!(exchange.remainders(), [0, 1, 0, 0, 0, 0, 0, 0]);
    let accounts = exchange.accounts();
    assert_eq!(accounts[&1], Account { floor: 1, balances: [960, 49, 0, 0, 0, 0, 0, 0] });
    assert_eq!(accounts[&2], Account { floor: 1, balances: [100, 800, 0, 0, 0, 0, 0, 0] });
    assert_eq!(accounts[&3], Account { floor: 1, balances: [0, 100, 0, 0, 0, 0, 0, 0] });
    let offers = Offers::from([(key(0, 1, 98_304, 1, 1), 7), (key(1, 0, 32_768, 2, 1), 50)]);
    assert_eq!(*exchange.offers(), offers);
    assert_eq!(exchange.amount_of(1), 1_000);
    assert_eq!(exchange.amount_of(0), 1_067);
}

#[test]
fn the_block_by_hand_with_a_limit_just_too_high() {
    let mut exchange = founded(Bounds::default(), &hand_grants());
    let mut draft = hand_draft(&exchange);
    draft.transactions[0] = offer(1, 1, (0, 1), 98_305, 40);
    assert_eq!(refused(&mut exchange, &draft.bytes()), fault(21, 0, 1));
}

#[test]
fn the_block_by_hand_with_other_volumes() {
    let mut exchange = founded(Bounds::default(), &hand_grants());
    let mut draft = hand_draft(&exchange);
    draft.volumes[1].amount = 149;
    assert_eq!(refused(&mut exchange, &draft.bytes()), fault(10, 1, 0));
    draft.volumes[1].amount = 151;
    assert_eq!(refused(&mut exchange, &draft.bytes()), fault(10, 0, 0));
}

#[test]
fn no_payout_can_be_spent_in_its_block() {
    let mut exchange = founded(Bounds::default(), &hand_grants());
    let mut draft = hand_draft(&exchange);
    // Account 3 is paid 100 of asset 1 by the block.
    draft.transactions.push(pay(3, 2, 1, 1, 1));
    assert_eq!(refused(&mut exchange, &draft.bytes()), fault(18, 3, 1));
}

#[test]
fn received_payments_and_cancelled_offers_can_be_spent_at_once() {
    let mut exchange = three_and_offer();
    // Account 1 has 900 free and gets 100 back.
    passes(&mut exchange, &[cancel(1, 2, (0, 1), 65_536, 1), pay(1, 3, 2, 0, 1_000)]);
    let mut too_much = vec![cancel(1, 2, (0, 1), 65_536, 1), pay(1, 3, 2, 0, 1_001)];
    assert_eq!(fault_of(&mut exchange, &too_much), (18, 1, 0));
    too_much.push(pay(2, 1, 1, 0, 1));
    passes(&mut exchange, &too_much);
}

#[test]
fn lower_account_then_lower_sequence_number_first() {
    let mut exchange = three();
    let mut draft = next(&exchange);
    draft.volumes = vec![volume(0, 1, 25), volume(1, 0, 25)];
    draft.transactions = vec![
        offer(2, 1, (0, 1), 65_536, 10),
        offer(1, 2, (0, 1), 65_536, 10),
        offer(1, 1, (0, 1), 65_536, 10),
        offer(3, 1, (1, 0), 1, 25),
        // The lowest limit of all comes first though its account is higher.
        offer(3, 2, (0, 1), 65_535, 1),
    ];
    let block = draft.bytes();
    let checked = exchange.check(&block).unwrap();
    assert_eq!(exchange.fill(&checked, key(0, 1, 65_535, 3, 2)), Ok((1, 1)));
    assert_eq!(exchange.fill(&checked, key(0, 1, 65_536, 1, 1)), Ok((10, 10)));
    assert_eq!(exchange.fill(&checked, key(0, 1, 65_536, 1, 2)), Ok((10, 10)));
    assert_eq!(exchange.fill(&checked, key(0, 1, 65_536, 2, 1)), Ok((4, 4)));
    // Keys that are not filled, and what is no key at all.
    assert_eq!(exchange.fill(&checked, key(0, 1, 65_536, 2, 9)), Ok((0, 0)));
    assert_eq!(exchange.fill(&checked, key(0, 2, 65_536, 2, 1)), Ok((0, 0)));
    assert_eq!(exchange.fill(&checked, key(9, 9, 0, 0, 0)), Ok((0, 0)));
    assert_eq!(exchange.fill(&checked, key(0, 1, 0, 0, 0)), Ok((0, 0)));
    exchange.reject(checked);
}

#[test]
fn limits_above_all_quotients() {
    // Price 16,777,215 for 1: a limit of 4,294,967,295 is eligible, since
    // 16,777,215 × 65,536 is higher. The other way round, no limit is.
    let mut exchange = founded(Bounds::default(), &[grant(1, &[1]), grant(2, &[0, 16_777_215])]);
    let mut draft = next(&exchange);
    draft.prices[0] = 16_777_215;
    draft.volumes = vec![volume(0, 1, 1), volume(1, 0, 16_777_215)];
    draft.transactions = vec![offer(1, 1, (0, 1), u32::MAX, 1), offer(2, 1, (1, 0), 1, 16_777_215)];
    // 65,536 ÷ 16,777,215 is below 1, so even limit 1 asks too much.
    assert_eq!(refused(&mut exchange, &draft.bytes()), fault(21, 1, 0));
}

// Section 6.

#[test]
fn the_four_counts() {
    let mut exchange = three();
    assert_eq!(exchange.counts(), counts(0, 0, 0, 0));
    let block = next(&exchange).bytes();
    let first = exchange.check(&block).unwrap();
    let second = exchange.check(&block).unwrap();
    let third = exchange.check(&block).unwrap();
    assert_eq!(exchange.counts(), counts(3, 0, 0, 0));
    exchange.commit(first).unwrap();
    assert_eq!(exchange.fill(&second, key(0, 1, 1, 1, 1)), Err(fault(8, 1, 1)));
    assert_eq!(exchange.commit(second), Err(fault(8, 1, 1)));
    exchange.reject(third);
    assert_eq!(exchange.counts(), counts(3, 1, 1, 1));
    refused(&mut exchange, &block);
    assert_eq!(exchange.counts(), counts(3, 1, 1, 1));
}

#[test]
fn a_founding_sets_the_counts_to_zero() {
    let mut other = three();
    let block = next(&other).bytes();
    let first = other.check(&block).unwrap();
    let second = other.check(&block).unwrap();
    let mut exchange = Exchange::new(Bounds::default());
    assert_eq!(exchange.fill(&first, key(0, 1, 1, 1, 1)), Err(fault(24, 0, 0)));
    assert_eq!(exchange.commit(first), Err(fault(24, 0, 0)));
    exchange.reject(second);
    assert_eq!(exchange.counts(), counts(0, 0, 1, 1));
    // A refused founding leaves them.
    assert_eq!(exchange.found(b"?"), Err(fault(3, 0, 0)));
    assert_eq!(exchange.counts(), counts(0, 0, 1, 1));
    exchange.found(b"E").unwrap();
    assert_eq!(exchange.counts(), counts(0, 0, 0, 0));
}

#[test]
fn new_accounts_floors_and_payments() {
    let mut exchange = three();
    let block = next_with(
        &exchange,
        &[create(1, 64, 50), create(1, 3, u32::MAX), pay(2, 1, 3, 4, 1_000), pay(3, 1, 3, 0, 5)],
    );
    take(&mut exchange, &block);
    let accounts = exchange.accounts();
    assert_eq!(accounts.len(), 5);
    assert_eq!(accounts[&50], Account::default());
    assert_eq!(accounts[&u32::MAX], Account::default());
    assert_eq!(accounts[&1].floor, 64);
    assert_eq!(accounts[&2].balances[4], 0);
    assert_eq!(accounts[&3].balances, [1_000, 1_000, 1_000, 1_000, 2_000, 1_000, 1_000, 1_000]);
    assert_eq!(exchange.height(), 1);
}

#[test]
fn cancelled_offers_leave_the_book() {
    let mut exchange = three_and_offer();
    assert_eq!(exchange.accounts()[&1].balances[0], 900);
    let block = next_with(&exchange, &[cancel(1, 2, (0, 1), 65_536, 1)]);
    take(&mut exchange, &block);
    assert!(exchange.offers().is_empty());
    assert_eq!(exchange.accounts()[&1].balances[0], 1_000);
}

#[test]
fn a_refusal_leaves_all_as_it_was() {
    let mut exchange = three_and_offer();
    let before = exchange.clone();
    fault_of(&mut exchange, &[create(1, 2, 9), create(9, 1, 10)]);
    assert_eq!(exchange.accounts(), before.accounts());
    assert_eq!(exchange.offers(), before.offers());
    assert_eq!(exchange.digest(), before.digest());
    assert_eq!(exchange.counts(), before.counts());
}

// Section 7: 8 to 26 one by one.

#[test]
fn fault_8_and_9() {
    let mut exchange = three();
    let mut draft = next(&exchange);
    draft.parent[31] ^= 1;
    assert_eq!(refused(&mut exchange, &draft.bytes()), fault(9, 0, 0));
    for height in [0, 2, u32::MAX] {
        draft.height = height;
        assert_eq!(refused(&mut exchange, &draft.bytes()), fault(8, u64::from(height), 0));
    }
}

#[test]
fn fault_11_source() {
    let mut exchange = three();
    assert_eq!(fault_of(&mut exchange, &[create(9, 1, 10), create(8, 7, 11)]), (11, 8, 7));
    // One that the block itself creates does not stand yet.
    assert_eq!(fault_of(&mut exchange, &[create(1, 1, 10), create(10, 1, 11)]), (11, 10, 1));
    assert_eq!(fault_of(&mut exchange, &[create(9, 4, 10), create(9, 3, 10)]), (11, 9, 3));
}

#[test]
fn fault_12_sequence_number() {
    let mut exchange = three_and_offer();
    passes(&mut exchange, &[pay(1, 2, 1, 0, 1), pay(1, 65, 1, 0, 1), pay(2, 64, 1, 0, 1)]);
    for sequence in [0, 1, 66, u32::MAX] {
        let found = fault_of(&mut exchange, &[pay(1, sequence, 1, 0, 1), pay(2, 1, 1, 0, 1)]);
        assert_eq!(found, (12, 1, u64::from(sequence)));
    }
}

#[test]
fn fault_13_twice() {
    let mut exchange = three();
    let all = [pay(2, 5, 1, 0, 1), create(2, 5, 9), pay(1, 7, 1, 0, 1), pay(1, 7, 1, 0, 1)];
    assert_eq!(fault_of(&mut exchange, &all), (13, 1, 7));
    assert_eq!(fault_of(&mut exchange, &all[..2]), (13, 2, 5));
}

#[test]
fn fault_14_receiver() {
    let mut exchange = three();
    assert_eq!(fault_of(&mut exchange, &[pay(1, 1, 9, 0, 1)]), (14, 1, 1));
    assert_eq!(fault_of(&mut exchange, &[create(1, 1, 9), pay(2, 1, 9, 0, 1)]), (14, 2, 1));
}

#[test]
fn fault_15_new_account() {
    let mut exchange = three();
    assert_eq!(fault_of(&mut exchange, &[create(1, 1, 3)]), (15, 1, 1));
    assert_eq!(fault_of(&mut exchange, &[create(2, 1, 9), create(1, 4, 9)]), (15, 1, 4));
    assert_eq!(
        fault_of(&mut exchange, &[create(3, 1, 8), create(3, 2, 8), create(2, 1, 9), create(2, 2, 9)]),
        (15, 2, 1)
    );
    let bounds = Bounds { top: 10, ..Bounds::default() };
    let mut exchange = founded(bounds, &[grant(10, &[])]);
    passes(&mut exchange, &[create(10, 1, 9)]);
    assert_eq!(fault_of(&mut exchange, &[create(10, 1, 11)]), (15, 10, 1));
}

#[test]
fn fault_16_cancelled_offer() {
    let mut exchange = three_and_offer();
    passes(&mut exchange, &[cancel(1, 2, (0, 1), 65_536, 1)]);
    assert_eq!(fault_of(&mut exchange, &[cancel(2, 2, (0, 1), 65_536, 1)]), (16, 2, 2));
    assert_eq!(fault_of(&mut exchange, &[cancel(1, 2, (0, 1), 65_537, 1)]), (16, 1, 2));
    assert_eq!(fault_of(&mut exchange, &[cancel(1, 2, (1, 0), 65_536, 1)]), (16, 1, 2));
    assert_eq!(fault_of(&mut exchange, &[cancel(1, 2, (0, 1), 65_536, 2)]), (16, 1, 2));
    // An offer that the block itself places does not stand yet.
    let both = [offer(2, 1, (0, 1), 5, 1), cancel(2, 2, (0, 1), 5, 1)];
    assert_eq!(fault_of(&mut exchange, &both), (16, 2, 2));
}

#[test]
fn fault_17_cancelled_twice() {
    let mut exchange = three_and_offer();
    let both = [cancel(1, 9, (0, 1), 65_536, 1), cancel(1, 8, (0, 1), 65_536, 1)];
    assert_eq!(fault_of(&mut exchange, &both), (17, 1, 8));
}

#[test]
fn fault_18_below_zero() {
    let mut exchange = three();
    passes(&mut exchange, &[pay(1, 1, 2, 0, 1_000), offer(1, 2, (1, 0), 1, 1_000)]);
    assert_eq!(fault_of(&mut exchange, &[offer(1, 1, (1, 0), 1, 1_001)]), (18, 1, 1));
    let both = [pay(1, 1, 2, 7, 1_001), pay(1, 2, 2, 3, 600), offer(1, 3, (3, 4), 1, 401)];
    assert_eq!(fault_of(&mut exchange, &both), (18, 1, 3));
    // By its net a payment to oneself needs nothing.
    passes(&mut exchange, &[pay(1, 1, 1, 0, TOP)]);
    // Payments in a ring, each more than any balance.
    passes(&mut exchange, &[pay(1, 1, 2, 0, TOP), pay(2, 1, 3, 0, TOP), pay(3, 1, 1, 0, TOP)]);
}

#[test]
fn fault_19_capacity_of_the_store() {
    let bounds = Bounds { account_capacity: 3, ..Bounds::default() };
    let mut exchange = founded(bounds, &[grant(1, &[]), grant(2, &[])]);
    passes(&mut exchange, &[create(1, 1, 7)]);
    assert_eq!(fault_of(&mut exchange, &[create(1, 1, 7), create(2, 1, 8)]), (19, 0, 0));
}

#[test]
fn fault_20_capacity_of_the_book() {
    let bounds = Bounds { offer_capacity: 2, ..Bounds::default() };
    let mut exchange = founded(bounds, &[grant(1, &[1_000; 8])]);
    let two = [offer(1, 1, (0, 1), 1, 1), offer(1, 2, (0, 1), 1, 1)];
    let block = next_with(&exchange, &two);
    take(&mut exchange, &block);
    assert_eq!(fault_of(&mut exchange, &[offer(1, 3, (0, 1), 1, 1)]), (20, 0, 0));
    passes(&mut exchange, &[offer(1, 3, (0, 1), 1, 1), cancel(1, 4, (0, 1), 1, 1)]);
    // Offers that the block would fill whole count too.
    let mut draft = next(&exchange);
    draft.volumes = vec![volume(0, 1, 2), volume(1, 0, 2)];
    draft.transactions = vec![offer(1, 3, (1, 0), 1, 2)];
    assert_eq!(refused(&mut exchange, &draft.bytes()), fault(20, 0, 0));
}

#[test]
fn fault_21_volume() {
    let mut exchange = three_and_offer();
    let mut draft = next(&exchange);
    draft.volumes = vec![volume(0, 1, 100), volume(1, 0, 100)];
    draft.transactions = vec![offer(2, 1, (1, 0), 65_536, 100)];
    let checked_bytes = draft.bytes();
    let checked = exchange.check(&checked_bytes).unwrap();
    exchange.reject(checked);
    draft.volumes = vec![volume(0, 1, 101), volume(1, 0, 101)];
    assert_eq!(refused(&mut exchange, &draft.bytes()), fault(21, 0, 1));
    draft.transactions.push(offer(3, 1, (0, 1), 65_536, 1));
    assert_eq!(refused(&mut exchange, &draft.bytes()), fault(21, 1, 0));
    draft.transactions.push(offer(3, 2, (1, 0), 65_536, 1));
    let good = draft.bytes();
    take(&mut exchange, &good);
    assert!(exchange.offers().is_empty());
    // What is cancelled is not in trade.
    let mut exchange = three_and_offer();
    let mut draft = next(&exchange);
    draft.volumes = vec![volume(0, 1, 100), volume(1, 0, 100)];
    draft.transactions = vec![offer(2, 1, (1, 0), 65_536, 100), cancel(1, 2, (0, 1), 65_536, 1)];
    assert_eq!(refused(&mut exchange, &draft.bytes()), fault(21, 0, 1));
}

#[test]
fn fault_22_24_25() {
    let mut exchange = Exchange::new(Bounds::default());
    assert_eq!(exchange.check(b"?").unwrap_err(), fault(24, 0, 0));
    exchange.found(b"E").unwrap();
    assert_eq!(exchange.found(b"?"), Err(fault(25, 0, 0)));
    let accounts = Accounts::from([(1, Account::default())]);
    let mut exchange = Exchange::over(Bounds::default(), accounts, Offers::new());
    assert_eq!(exchange.found(b"?"), Err(fault(22, 0, 0)));
    let offers = Offers::from([(key(0, 1, 1, 1, 1), 1)]);
    let mut exchange = Exchange::over(Bounds::default(), Accounts::new(), offers);
    assert_eq!(exchange.found(b"?"), Err(fault(22, 0, 0)));
}

#[test]
fn faults_of_a_founding() {
    let small = Bounds { account_capacity: 2, top: 100, ..Bounds::default() };
    let try_found = |grants: &[Grant]| Exchange::new(small).found(&founding(grants));
    assert_eq!(try_found(&[grant(100, &[]), grant(1, &[TOP])]), Ok(()));
    assert_eq!(try_found(&[grant(101, &[])]), Err(fault(15, 101, 0)));
    assert_eq!(try_found(&[grant(200, &[]), grant(7, &[]), grant(7, &[])]), Err(fault(15, 7, 0)));
    assert_eq!(try_found(&[grant(200, &[]), grant(150, &[])]), Err(fault(15, 150, 0)));
    assert_eq!(try_found(&[grant(1, &[]), grant(2, &[]), grant(3, &[])]), Err(fault(19, 0, 0)));
    let full = grant(1, &[TOP, 0, TOP, TOP]);
    assert_eq!(try_found(&[full.clone(), grant(2, &[0, TOP])]), Ok(()));
    assert_eq!(try_found(&[full, grant(2, &[0, 5, 1, 1])]), Err(fault(23, 2, 0)));
}

#[test]
fn the_least_of_several_faults() {
    let mut exchange = three_and_offer();
    let mut draft = next(&exchange);
    draft.transactions = vec![
        pay(1, 2, 77, 0, 5_000),         // 14 at (1, 2)
        cancel(2, 3, (0, 1), 65_536, 1), // 16 at (2, 3)
        create(3, 65, 3),                // 12 at (3, 65)
        pay(3, 64, 66, 0, 5_000),        // 14 at (3, 64)
    ];
    assert_eq!(refused(&mut exchange, &draft.bytes()), fault(12, 3, 65));
    draft.transactions.remove(2);
    assert_eq!(refused(&mut exchange, &draft.bytes()), fault(14, 1, 2));
    draft.volumes = vec![volume(0, 1, 1)];
    assert_eq!(refused(&mut exchange, &draft.bytes()), fault(10, 1, 0));
    draft.parent = [0; 32];
    assert_eq!(refused(&mut exchange, &draft.bytes()), fault(9, 0, 0));
    draft.height = 9;
    assert_eq!(refused(&mut exchange, &draft.bytes()), fault(8, 9, 1));
    draft.transactions[0].source = 0;
    assert_eq!(refused(&mut exchange, &draft.bytes()), fault(5, 96, 0));
}
