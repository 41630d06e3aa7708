//! The replica of the exchange (RULES.md, sections 2, 3, 5, 6 and 7): accounts
//! and offers in sorted maps, founding, check, fill, commit and reject, and
//! the faults 8 to 26.

use std::collections::BTreeMap;
use std::ops::RangeInclusive;

use crate::digest::digest_of_state;
use crate::fault::{keep_least, Fault};
use crate::reading::{
    read_block, read_founding, Action, Block, Founding, Transaction, Volume, ASSETS, TOP_AMOUNT,
};

/// A limit counts units of one 65,536th.
pub const LIMIT_UNIT: u64 = 65_536;
/// How far above its floor an account's sequence numbers may go in a block.
pub const SEQUENCE_REACH: u64 = 64;
/// No store and no book has a higher capacity.
pub const MOST_CAPACITY: usize = 65_536;

/// What stands under an account number.
#[derive(Clone, Debug, Default, PartialEq, Eq)]
pub struct Account {
    pub floor: u32,
    pub balances: [u64; ASSETS],
}

/// An offer's key. The order of the fields is the order of comparison.
#[derive(Clone, Copy, Debug, PartialEq, Eq, PartialOrd, Ord)]
pub struct Key {
    pub sold: u8,
    pub bought: u8,
    pub limit: u32,
    pub account: u32,
    pub sequence: u32,
}

pub type Accounts = BTreeMap<u32, Account>;
pub type Offers = BTreeMap<Key, u64>;

/// What a replica is given when it is made.
#[derive(Clone, Copy, Debug, PartialEq, Eq)]
pub struct Bounds {
    pub account_capacity: usize,
    pub top: u32,
    pub offer_capacity: usize,
}

impl Default for Bounds {
    fn default() -> Bounds {
        Bounds { account_capacity: 256, top: u32::MAX, offer_capacity: 1_024 }
    }
}

/// The four counts.
#[derive(Clone, Copy, Debug, Default, PartialEq, Eq)]
pub struct Counts {
    pub passed: u32,
    pub committed: u32,
    pub lapsed: u32,
    pub rejected: u32,
}

/// A block that passed a check. It holds the bytes and is owed a verdict.
#[must_use = "a checked block must be committed or rejected"]
#[derive(Debug)]
pub struct Checked<'a> {
    bytes: &'a [u8],
}

/// A replica.
#[derive(Clone, Debug)]
pub struct Exchange {
    bounds: Bounds,
    accounts: Accounts,
    offers: Offers,
    founded: bool,
    height: u32,
    digest: [u8; 32],
    remainders: [u64; ASSETS],
    counts: Counts,
}

/// What a block without fault is going to do, apart from trade.
struct Plan {
    block: Block,
    /// What comes in less what goes out, for each account that the block moves.
    nets: BTreeMap<u32, [i64; ASSETS]>,
    /// The cancelled offers with the amounts under which they stand.
    cancelled: Offers,
    /// The new offers.
    placed: Offers,
}

impl Exchange {
    /// A replica with an empty store and an empty book.
    pub fn new(bounds: Bounds) -> Exchange {
        Exchange::over(bounds, Accounts::new(), Offers::new())
    }

    /// A replica above a store and a book that may hold something already.
    pub fn over(bounds: Bounds, accounts: Accounts, offers: Offers) -> Exchange {
        Exchange {
            bounds: Bounds {
                account_capacity: bounds.account_capacity.min(MOST_CAPACITY),
                top: bounds.top,
                offer_capacity: bounds.offer_capacity.min(MOST_CAPACITY),
            },
            accounts,
            offers,
            founded: false,
            height: 0,
            digest: [0; 32],
            remainders: [0; ASSETS],
            counts: Counts::default(),
        }
    }

    // Questions.

    pub fn bounds(&self) -> Bounds {
        self.bounds
    }

    pub fn accounts(&self) -> &Accounts {
        &self.accounts
    }

    pub fn offers(&self) -> &Offers {
        &self.offers
    }

    pub fn founded(&self) -> bool {
        self.founded
    }

    pub fn height(&self) -> u32 {
        self.height
    }

    pub fn digest(&self) -> [u8; 32] {
        self.digest
    }

    pub fn remainders(&self) -> [u64; ASSETS] {
        self.remainders
    }

    pub fn counts(&self) -> Counts {
        self.counts
    }

    /// Free balances, offered amounts and remainder of one asset together.
    pub fn amount_of(&self, asset: u8) -> u64 {
        let place = usize::from(asset);
        let free: u64 = self.accounts.values().map(|account| account.balances[place]).sum();
        let offered: u64 =
            self.offers.iter().filter(|(key, _)| key.sold == asset).map(|(_, amount)| *amount).sum();
        free + offered + self.remainders[place]
    }

    // Calls.

    /// Founds the replica.
    pub fn found(&mut self, bytes: &[u8]) -> Result<(), Fault> {
        if self.founded {
            return Err(Fault::plain(25));
        }
        if !self.accounts.is_empty() || !self.offers.is_empty() {
            return Err(Fault::plain(22));
        }
        let founding = read_founding(bytes)?;
        if let Some(fault) = self.founding_fault(&founding) {
            return Err(fault);
        }
        for grant in founding.grants {
            self.accounts.insert(grant.account, Account { floor: 0, balances: grant.balances });
        }
        self.founded = true;
        self.height = 0;
        self.remainders = [0; ASSETS];
        self.counts = Counts::default();
        self.renew_digest();
        Ok(())
    }

    /// Checks a block, and gives it back as a checked one if it has no fault.
    pub fn check<'a>(&mut self, bytes: &'a [u8]) -> Result<Checked<'a>, Fault> {
        self.must_be_founded()?;
        if self.counts.passed == u32::MAX {
            return Err(Fault::plain(26));
        }
        self.plan(bytes)?;
        self.counts.passed += 1;
        Ok(Checked { bytes })
    }

    /// What a checked block would now sell of the offer under a key, and what
    /// it would pay for it.
    pub fn fill(&self, checked: &Checked, key: Key) -> Result<(u64, u64), Fault> {
        self.must_be_founded()?;
        let plan = self.plan(checked.bytes)?;
        Ok(self.planned_fill(&plan, key))
    }

    /// Commits a checked block: tests it afresh, and does what it says.
    pub fn commit(&mut self, checked: Checked) -> Result<(), Fault> {
        let tested = self.must_be_founded().and_then(|()| self.plan(checked.bytes));
        match tested {
            Ok(plan) => {
                self.carry_out(plan);
                self.counts.committed += 1;
                Ok(())
            }
            Err(fault) => {
                self.counts.lapsed = self.counts.lapsed.saturating_add(1);
                Err(fault)
            }
        }
    }

    /// Rejects a checked block.
    pub fn reject(&mut self, _checked: Checked) {
        self.counts.rejected = self.counts.rejected.saturating_add(1);
    }

    fn must_be_founded(&self) -> Result<(), Fault> {
        if self.founded {
            Ok(())
        } else {
            Err(Fault::plain(24))
        }
    }

    fn renew_digest(&mut self) {
        self.digest = digest_of_state(self.height, &self.remainders, &self.accounts, &self.offers);
    }

    // The test of a founding: the least of 15, 19 and 23.

    fn founding_fault(&self, founding: &Founding) -> Option<Fault> {
        self.grant_fault(founding)
            .or_else(|| (founding.grants.len() > self.bounds.account_capacity).then(|| Fault::plain(19)))
            .or_else(|| amount_fault(founding))
    }

    /// 15 at a founding: an account above the top or in two grants.
    fn grant_fault(&self, founding: &Founding) -> Option<Fault> {
        let mut numbers: Vec<u32> = founding.grants.iter().map(|grant| grant.account).collect();
        numbers.sort_unstable();
        let twice = numbers.windows(2).find(|two| two[0] == two[1]).map(|two| two[0]);
        let above = numbers.iter().copied().find(|number| *number > self.bounds.top);
        let least = twice.into_iter().chain(above).min()?;
        Some(Fault::at(15, u64::from(least), 0))
    }

    // The test of a block: the least of 8 to 21.

    /// Reads and tests a block. Gives its first fault of 1 to 7, or the least
    /// of 8 to 21, or what it is going to do. The tests stand in the order of
    /// their numbers, so each may take for granted what the earlier ones tested.
    fn plan(&self, bytes: &[u8]) -> Result<Plan, Fault> {
        let block = read_block(bytes)?;
        self.test_place_in_chain(&block)?;
        test_clearing(&block)?;
        self.test_transactions(&block.transactions)?;
        let (cancelled, placed) = self.changes_of_book(&block.transactions);
        let nets = nets_of(&block.transactions, &cancelled);
        self.test_nets(&nets)?;
        self.test_capacities(&block.transactions, &cancelled, &placed)?;
        let plan = Plan { block, nets, cancelled, placed };
        self.test_volumes(&plan)?;
        Ok(plan)
    }

    /// 8 and 9: height and parent.
    fn test_place_in_chain(&self, block: &Block) -> Result<(), Fault> {
        if u64::from(block.height) != u64::from(self.height) + 1 {
            return Err(Fault::at(8, u64::from(block.height), u64::from(self.height)));
        }
        if block.parent != self.digest {
            return Err(Fault::plain(9));
        }
        Ok(())
    }

    /// 11 to 17: all that is at fault with single transactions or with two
    /// that say the same.
    fn test_transactions(&self, transactions: &[Transaction]) -> Result<(), Fault> {
        let mut least = None;
        for transaction in transactions {
            if let Some(fault) = self.single_fault(transaction) {
                keep_least(&mut least, fault);
            }
        }
        for fault in twin_faults(transactions) {
            keep_least(&mut least, fault);
        }
        least.map_or(Ok(()), Err)
    }

    /// 11, 12, 14, 15 and 16 of one transaction, looked at by itself.
    fn single_fault(&self, transaction: &Transaction) -> Option<Fault> {
        let number = match self.accounts.get(&transaction.source) {
            None => 11,
            Some(source) if !in_reach(transaction.sequence, source.floor) => 12,
            Some(_) => self.action_fault(transaction)?,
        };
        Some(Fault::transaction(number, transaction.name()))
    }

    /// The number of what is wrong with the action of a transaction.
    fn action_fault(&self, transaction: &Transaction) -> Option<u32> {
        match &transaction.action {
            Action::Create { account } => {
                let bad = *account > self.bounds.top || self.accounts.contains_key(account);
                bad.then_some(15)
            }
            Action::Pay { receiver, .. } => (!self.accounts.contains_key(receiver)).then_some(14),
            Action::Offer { .. } => None,
            Action::Cancel { .. } => {
                let key = cancelled_key(transaction)?;
                (!self.offers.contains_key(&key)).then_some(16)
            }
        }
    }

    /// The offers that leave the book by cancellation, with their amounts, and
    /// those that enter it.
    fn changes_of_book(&self, transactions: &[Transaction]) -> (Offers, Offers) {
        let mut cancelled = Offers::new();
        let mut placed = Offers::new();
        for transaction in transactions {
            if let Some(key) = cancelled_key(transaction) {
                let amount = self.offers.get(&key).copied().unwrap_or(0);
                cancelled.insert(key, amount);
            } else if let Some((key, amount)) = placed_offer(transaction) {
                placed.insert(key, amount);
            }
        }
        (cancelled, placed)
    }

    /// 18: balance plus net is below zero.
    fn test_nets(&self, nets: &BTreeMap<u32, [i64; ASSETS]>) -> Result<(), Fault> {
        for (number, net) in nets {
            let balances = self.accounts.get(number).map_or([0; ASSETS], |account| account.balances);
            for asset in 0..ASSETS {
                if (balances[asset] as i64) + net[asset] < 0 {
                    return Err(Fault::at(18, u64::from(*number), asset as u64));
                }
            }
        }
        Ok(())
    }

    /// 19 and 20: store and book must be able to hold what comes.
    fn test_capacities(
        &self,
        transactions: &[Transaction],
        cancelled: &Offers,
        placed: &Offers,
    ) -> Result<(), Fault> {
        let created = transactions
            .iter()
            .filter(|transaction| matches!(transaction.action, Action::Create { .. }))
            .count();
        if self.accounts.len() + created > self.bounds.account_capacity {
            return Err(Fault::plain(19));
        }
        if self.offers.len() - cancelled.len() + placed.len() > self.bounds.offer_capacity {
            return Err(Fault::plain(20));
        }
        Ok(())
    }

    /// 21: a volume exceeds what its pair's eligible offers in trade amount to.
    fn test_volumes(&self, plan: &Plan) -> Result<(), Fault> {
        for volume in &plan.block.volumes {
            let eligible = eligible_keys(volume.sold, volume.bought, &plan.block.prices);
            if volume.amount > self.sum_in_trade(plan, eligible) {
                return Err(Fault::at(21, u64::from(volume.sold), u64::from(volume.bought)));
            }
        }
        Ok(())
    }

    /// The sum of the offers in trade whose keys lie in a range.
    fn sum_in_trade(&self, plan: &Plan, keys: RangeInclusive<Key>) -> u64 {
        let sum = |offers: &Offers| offers.range(keys.clone()).map(|(_, amount)| *amount).sum::<u64>();
        sum(&self.offers) - sum(&plan.cancelled) + sum(&plan.placed)
    }

    // Fill.

    fn planned_fill(&self, plan: &Plan, key: Key) -> (u64, u64) {
        let pair = |volume: &&Volume| (volume.sold, volume.bought) == (key.sold, key.bought);
        let Some(volume) = plan.block.volumes.iter().find(pair) else {
            return (0, 0);
        };
        let eligible = eligible_keys(volume.sold, volume.bought, &plan.block.prices);
        if !eligible.contains(&key) {
            return (0, 0);
        }
        let own = self.sum_in_trade(plan, key..=key);
        let with_lower = self.sum_in_trade(plan, *eligible.start()..=key);
        let sold = own.min(volume.amount.saturating_sub(with_lower - own));
        (sold, worth(sold, volume, &plan.block.prices))
    }

    // Commit.

    /// Does what a plan without fault says.
    fn carry_out(&mut self, plan: Plan) {
        let Plan { block, nets, cancelled, placed } = plan;
        for key in cancelled.keys() {
            self.offers.remove(key);
        }
        self.offers.extend(placed);
        self.book_nets(&nets);
        self.trade_all(&block);
        self.raise_floors_and_open(&block.transactions);
        self.height += 1;
        self.renew_digest();
    }

    fn book_nets(&mut self, nets: &BTreeMap<u32, [i64; ASSETS]>) {
        for (number, net) in nets {
            let account = self.accounts.get_mut(number).expect("11 and 14 were tested");
            for (balance, change) in account.balances.iter_mut().zip(net) {
                *balance = balance.checked_add_signed(*change).expect("18 was tested");
            }
        }
    }

    /// Trades all pairs that have a volume, and adds what rounding leaves to
    /// the remainders.
    fn trade_all(&mut self, block: &Block) {
        let mut sold = [0; ASSETS];
        let mut paid = [0; ASSETS];
        for volume in &block.volumes {
            sold[usize::from(volume.sold)] += volume.amount;
            paid[usize::from(volume.bought)] += self.trade(volume, &block.prices);
        }
        for asset in 0..ASSETS {
            self.remainders[asset] += sold[asset] - paid[asset];
        }
    }

    /// Sells a pair's volume in key order and pays the owners. Gives all that
    /// was paid.
    fn trade(&mut self, volume: &Volume, prices: &[u64; ASSETS]) -> u64 {
        let mut left = volume.amount;
        let mut all_paid = 0;
        let mut gone = Vec::new();
        for (key, amount) in self.offers.range_mut(eligible_keys(volume.sold, volume.bought, prices)) {
            if left == 0 {
                break;
            }
            let sold = left.min(*amount);
            let paid = worth(sold, volume, prices);
            left -= sold;
            *amount -= sold;
            if *amount == 0 {
                gone.push(*key);
            }
            let owner = self.accounts.get_mut(&key.account).expect("owners of offers stand");
            owner.balances[usize::from(volume.bought)] += paid;
            all_paid += paid;
        }
        for key in gone {
            self.offers.remove(&key);
        }
        all_paid
    }

    fn raise_floors_and_open(&mut self, transactions: &[Transaction]) {
        for transaction in transactions {
            let source = self.accounts.get_mut(&transaction.source).expect("11 was tested");
            source.floor = source.floor.max(transaction.sequence);
            if let Action::Create { account } = transaction.action {
                self.accounts.insert(account, Account::default());
            }
        }
    }
}

/// 23: an asset's amount founded is too high.
fn amount_fault(founding: &Founding) -> Option<Fault> {
    (0..ASSETS)
        .find(|asset| founding.grants.iter().map(|grant| grant.balances[*asset]).sum::<u64>() > TOP_AMOUNT)
        .map(|asset| Fault::at(23, asset as u64, 0))
}

/// 10: more of an asset is bought than sold, by worth.
fn test_clearing(block: &Block) -> Result<(), Fault> {
    let mut worth_bought = [0u64; ASSETS];
    let mut worth_sold = [0u64; ASSETS];
    for volume in &block.volumes {
        let worth = volume.amount * block.prices[usize::from(volume.sold)];
        worth_bought[usize::from(volume.bought)] += worth;
        worth_sold[usize::from(volume.sold)] += worth;
    }
    match (0..ASSETS).find(|asset| worth_bought[*asset] > worth_sold[*asset]) {
        Some(asset) => Err(Fault::at(10, asset as u64, 0)),
        None => Ok(()),
    }
}

/// Whether a sequence number is one of floor + 1 to floor + 64.
fn in_reach(sequence: u32, floor: u32) -> bool {
    let floor = u64::from(floor);
    (floor + 1..=floor + SEQUENCE_REACH).contains(&u64::from(sequence))
}

/// 13, 15 and 17 for what occurs twice.
fn twin_faults(transactions: &[Transaction]) -> Vec<Fault> {
    let mut names = Vec::with_capacity(transactions.len());
    let mut created = Vec::new();
    let mut cancelled = Vec::new();
    for transaction in transactions {
        names.push(transaction.name());
        if let Action::Create { account } = transaction.action {
            created.push((account, transaction.name()));
        } else if let Some(key) = cancelled_key(transaction) {
            cancelled.push((key, transaction.name()));
        }
    }
    names.sort_unstable();
    let same_name = names.windows(2).find(|two| two[0] == two[1]).map(|two| two[0]);
    let mut faults: Vec<Fault> = same_name.into_iter().map(|name| Fault::transaction(13, name)).collect();
    faults.extend(least_twin(created).map(|name| Fault::transaction(15, name)));
    faults.extend(least_twin(cancelled).map(|name| Fault::transaction(17, name)));
    faults
}

/// Of the transactions whose subject occurs twice, the least name.
fn least_twin<Subject: Ord + Copy>(mut subjects: Vec<(Subject, (u32, u32))>) -> Option<(u32, u32)> {
    subjects.sort_unstable();
    // Of equal subjects the one with the least name stands first.
    subjects.windows(2).filter(|two| two[0].0 == two[1].0).map(|two| two[0].1).min()
}

/// The key of the offer that a transaction cancels, if it is a cancellation.
fn cancelled_key(transaction: &Transaction) -> Option<Key> {
    match transaction.action {
        Action::Cancel { sold, bought, limit, offered } => {
            Some(Key { sold, bought, limit, account: transaction.source, sequence: offered })
        }
        _ => None,
    }
}

/// The key and amount of the offer that a transaction places, if it does.
fn placed_offer(transaction: &Transaction) -> Option<(Key, u64)> {
    match transaction.action {
        Action::Offer { sold, bought, limit, amount } => {
            let (account, sequence) = transaction.name();
            Some((Key { sold, bought, limit, account, sequence }, amount))
        }
        _ => None,
    }
}

/// What comes in less what goes out, for each account that is moved.
fn nets_of(transactions: &[Transaction], cancelled: &Offers) -> BTreeMap<u32, [i64; ASSETS]> {
    let mut nets: BTreeMap<u32, [i64; ASSETS]> = BTreeMap::new();
    let mut add = |account: u32, asset: u8, amount: i64| {
        nets.entry(account).or_default()[usize::from(asset)] += amount;
    };
    for transaction in transactions {
        match transaction.action {
            Action::Pay { receiver, asset, amount, .. } => {
                add(transaction.source, asset, -(amount as i64));
                add(receiver, asset, amount as i64);
            }
            Action::Offer { sold, amount, .. } => add(transaction.source, sold, -(amount as i64)),
            Action::Create { .. } | Action::Cancel { .. } => {}
        }
    }
    for (key, amount) in cancelled {
        add(key.account, key.sold, *amount as i64);
    }
    nets
}

/// The highest limit that is eligible at a block's prices, or 0 if none is.
/// limit × bought ≤ sold × 65,536 says the same as limit ≤ that quotient.
pub fn highest_limit(sold: u8, bought: u8, prices: &[u64; ASSETS]) -> u32 {
    let quotient = prices[usize::from(sold)] * LIMIT_UNIT / prices[usize::from(bought)];
    quotient.min(u64::from(u32::MAX)) as u32
}

/// The range of all keys that are eligible in a pair. Its lower end has limit
/// 0, which no offer has, so the range is never upside down.
fn eligible_keys(sold: u8, bought: u8, prices: &[u64; ASSETS]) -> RangeInclusive<Key> {
    let lowest = Key { sold, bought, limit: 0, account: 0, sequence: 0 };
    let limit = highest_limit(sold, bought, prices);
    let highest = Key { sold, bought, limit, account: u32::MAX, sequence: u32::MAX };
    lowest..=highest
}

/// What is paid for some units sold in the pair of a volume.
fn worth(sold: u64, volume: &Volume, prices: &[u64; ASSETS]) -> u64 {
    sold * prices[usize::from(volume.sold)] / prices[usize::from(volume.bought)]
}

#[cfg(test)]
mod tests {
    use super::*;
    use crate::reading::Command;
    use crate::writing::write_all;

    /// The smallest block that may come after the given replica.
    fn empty_block(exchange: &Exchange) -> Vec<u8> {
        let mut commands = vec![Command::Begin { height: exchange.height + 1, parent: exchange.digest }];
        commands.extend((0..8).map(|asset| Command::Price { asset, price: 1 }));
        commands.push(Command::End);
        write_all(&commands)
    }

    #[test]
    fn check_refuses_at_the_highest_count_of_passed_blocks() {
        let mut exchange = Exchange::new(Bounds::default());
        exchange.found(b"E").unwrap();
        let block = empty_block(&exchange);
        exchange.counts.passed = u32::MAX - 1;
        let checked = exchange.check(&block).unwrap();
        assert_eq!(exchange.counts.passed, u32::MAX);
        assert_eq!(exchange.check(&block).unwrap_err(), Fault::plain(26));
        // 26 comes before the bytes.
        assert_eq!(exchange.check(b"?").unwrap_err(), Fault::plain(26));
        exchange.commit(checked).unwrap();
        assert_eq!(exchange.counts.committed, 1);
    }

    #[test]
    fn lapsed_and_rejected_stop() {
        let mut exchange = Exchange::new(Bounds::default());
        exchange.found(b"E").unwrap();
        let block = empty_block(&exchange);
        let first = exchange.check(&block).unwrap();
        let second = exchange.check(&block).unwrap();
        let third = exchange.check(&block).unwrap();
        exchange.commit(first).unwrap();
        exchange.counts.lapsed = u32::MAX;
        exchange.counts.rejected = u32::MAX;
        assert_eq!(exchange.commit(second).unwrap_err(), Fault::at(8, 1, 1));
        exchange.reject(third);
        assert_eq!(exchange.counts.lapsed, u32::MAX);
        assert_eq!(exchange.counts.rejected, u32::MAX);
    }

    #[test]
    fn sequence_numbers_reach_sixty_four_above_the_floor() {
        assert!(!in_reach(0, 0));
        assert!(in_reach(1, 0));
        assert!(in_reach(64, 0));
        assert!(!in_reach(65, 0));
        assert!(in_reach(u32::MAX, u32::MAX - 1));
        assert!(!in_reach(u32::MAX, u32::MAX));
        assert!(!in_reach(0, u32::MAX));
    }

    #[test]
    fn capacities_end_at_65536() {
        let exchange = Exchange::new(Bounds { account_capacity: 70_000, top: 5, offer_capacity: 1 << 20 });
        assert_eq!(exchange.bounds().account_capacity, 65_536);
        assert_eq!(exchange.bounds().offer_capacity, 65_536);
    }
}
