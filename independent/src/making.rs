//! Made streams: foundings and good blocks with real trade. The maker holds a
//! replica of its own, so it knows heights, parents, balances and offers.
//!
//! A good block's volumes clear: they are put together from cycles of pairs
//! through which the same worth flows. The worth is a common multiple of the
//! prices in the cycle, so that each pair's amount is whole.

use std::collections::{BTreeMap, BTreeSet};

use crate::exchange::{highest_limit, Bounds, Exchange, Key, Offers};
use crate::random::Random;
use crate::reading::{
    Action, Command, Grant, Transaction, Volume, ASSETS, MOST_TRANSACTIONS, TOP_AMOUNT, TOP_PRICE,
};
use crate::writing::write_all;

/// Worths above this are not tried.
const TOP_WORTH: u64 = 1 << 60;

/// Amounts for each pair of assets: `[sold][bought]`.
pub type Pairs = [[u64; ASSETS]; ASSETS];

/// A block in the making. Nothing in it need be good.
#[derive(Clone)]
pub struct Draft {
    pub height: u32,
    pub parent: [u8; 32],
    pub prices: [u32; ASSETS],
    pub volumes: Vec<Volume>,
    pub transactions: Vec<Transaction>,
}

impl Draft {
    pub fn commands(&self) -> Vec<Command> {
        let mut commands = vec![Command::Begin { height: self.height, parent: self.parent }];
        for (asset, price) in self.prices.iter().enumerate() {
            commands.push(Command::Price { asset: asset as u8, price: *price });
        }
        commands.extend(self.volumes.iter().copied().map(Command::Volume));
        commands.extend(self.transactions.iter().cloned().map(Command::Transaction));
        commands.push(Command::End);
        commands
    }

    pub fn bytes(&self) -> Vec<u8> {
        write_all(&self.commands())
    }

    /// The prices in the width in which the exchange reckons.
    pub fn wide_prices(&self) -> [u64; ASSETS] {
        self.prices.map(u64::from)
    }

    /// Sets the volumes from amounts for each pair.
    pub fn set_volumes(&mut self, pairs: &Pairs) {
        self.volumes.clear();
        for (sold, row) in pairs.iter().enumerate() {
            for (bought, amount) in row.iter().enumerate().filter(|(_, amount)| **amount > 0) {
                self.volumes.push(Volume { sold: sold as u8, bought: bought as u8, amount: *amount });
            }
        }
    }

    /// The amounts for each pair that the volumes give.
    pub fn pairs(&self) -> Pairs {
        let mut pairs = [[0; ASSETS]; ASSETS];
        for volume in &self.volumes {
            if usize::from(volume.sold) < ASSETS && usize::from(volume.bought) < ASSETS {
                pairs[usize::from(volume.sold)][usize::from(volume.bought)] = volume.amount;
            }
        }
        pairs
    }
}

/// Makes a stream, piece by piece.
pub struct Maker {
    pub random: Random,
    pub exchange: Exchange,
    pub stream: Vec<u8>,
    /// The assets that are traded most in this stream.
    active: Vec<u8>,
}

/// What is known while the transactions of one block are made.
pub struct Work {
    numbers: Vec<u32>,
    /// Balance plus net so far; the maker never lets it fall below zero.
    free: BTreeMap<u32, [u64; ASSETS]>,
    last: BTreeMap<u32, u32>,
    cancelled: BTreeSet<Key>,
    created: BTreeSet<u32>,
    prices: [u64; ASSETS],
    transactions: Vec<Transaction>,
}

impl Maker {
    pub fn new(seed: u64) -> Maker {
        let mut random = Random::new(seed);
        let mut active: Vec<u8> = (0..ASSETS as u8).collect();
        random.shuffle(&mut active);
        let kept = random.one_of(&[2, 2, 3, 3, 4, 5, 8]);
        active.truncate(kept);
        Maker { random, exchange: Exchange::new(Bounds::default()), stream: Vec::new(), active }
    }

    /// Appends a founding and takes it.
    pub fn add_founding(&mut self, grants: &[Grant]) {
        let mut commands: Vec<Command> = grants.iter().cloned().map(Command::Grant).collect();
        commands.push(Command::End);
        let bytes = write_all(&commands);
        let _ = self.exchange.found(&bytes);
        self.stream.extend(bytes);
    }

    /// Appends a block and takes it. True if it was good.
    pub fn add_block(&mut self, bytes: &[u8]) -> bool {
        self.stream.extend(bytes);
        match self.exchange.check(bytes) {
            Ok(checked) => self.exchange.commit(checked).is_ok(),
            Err(_) => false,
        }
    }

    // Foundings.

    /// Good grants to some accounts.
    pub fn grants(&mut self, count: usize) -> Vec<Grant> {
        let mut left = [TOP_AMOUNT; ASSETS];
        let top_of_size = self.random.one_of(&[50, 1_000, 1_000_000, 1_000_000_000, TOP_AMOUNT]);
        let mut grants = Vec::new();
        for account in self.account_numbers(count) {
            let mut balances = [0; ASSETS];
            for (balance, left) in balances.iter_mut().zip(&mut left) {
                *balance = self.a_balance(top_of_size).min(*left);
                *left -= *balance;
            }
            grants.push(Grant { account, balances });
        }
        if self.random.percent(10) {
            use_up_one_asset(&mut self.random, &mut grants, &left);
        }
        self.random.shuffle(&mut grants);
        grants
    }

    fn a_balance(&mut self, top: u64) -> u64 {
        match self.random.below(10) {
            0 => 0,
            1 => self.random.between(1, 20),
            _ => self.random.between(0, top),
        }
    }

    /// So many different account numbers.
    pub fn account_numbers(&mut self, count: usize) -> BTreeSet<u32> {
        let close = self.random.percent(50);
        let mut numbers = BTreeSet::new();
        if count > 0 && self.random.percent(20) {
            numbers.insert(u32::MAX);
        }
        while numbers.len() < count {
            let number = if close {
                self.random.between(1, 2 * count as u64) as u32
            } else {
                self.random.between(1, u64::from(u32::MAX)) as u32
            };
            numbers.insert(number);
        }
        numbers
    }

    /// An account number that does not stand.
    pub fn absent_number(&mut self) -> u32 {
        loop {
            let number = match self.random.below(4) {
                0 => self.random.between(1, 20) as u32,
                1 => u32::MAX,
                _ => self.random.between(1, u64::from(u32::MAX)) as u32,
            };
            if !self.exchange.accounts().contains_key(&number) {
                return number;
            }
        }
    }

    // Prices.

    pub fn prices(&mut self) -> [u32; ASSETS] {
        let style = self.random.below(10);
        let base = self.random.between(1, u64::from(TOP_PRICE) / 24) as u32;
        let mut prices = [0; ASSETS];
        for price in &mut prices {
            *price = match style {
                0..=4 => self.random.between(1, 6) as u32,
                5..=6 => self.random.one_of(&[1, 2, 3, 4, 6, 8, 12, 24]),
                7 => base * self.random.one_of(&[1, 2, 3, 4, 6, 8, 12, 24]),
                8 => self.random.one_of(&[1, 1, 3, TOP_PRICE, TOP_PRICE / 3]),
                _ => self.random.between(1, u64::from(TOP_PRICE)) as u32,
            };
        }
        prices
    }

    // Blocks.

    /// An empty draft that is next in the chain.
    pub fn empty_draft(&mut self) -> Draft {
        Draft {
            height: self.exchange.height().wrapping_add(1),
            parent: self.exchange.digest(),
            prices: self.prices(),
            volumes: Vec::new(),
            transactions: Vec::new(),
        }
    }

    pub fn start_work(&self, draft: &Draft) -> Work {
        let accounts = self.exchange.accounts();
        Work {
            numbers: accounts.keys().copied().collect(),
            free: accounts.iter().map(|(number, account)| (*number, account.balances)).collect(),
            last: accounts.iter().map(|(number, account)| (*number, account.floor)).collect(),
            cancelled: BTreeSet::new(),
            created: BTreeSet::new(),
            prices: draft.wide_prices(),
            transactions: Vec::new(),
        }
    }

    /// A good block with so many transactions, if the accounts allow as many.
    pub fn good_draft(&mut self, transactions: usize) -> Draft {
        let mut draft = self.empty_draft();
        let mut work = self.start_work(&draft);
        if transactions > 5 && self.random.percent(70) {
            self.add_cycle_of_offers(&mut work);
        }
        // Some tries fail, so there are more tries than transactions.
        for _ in 0..transactions * 3 + 3 {
            if work.transactions.len() == transactions {
                break;
            }
            self.add_some_transaction(&mut work);
        }
        draft.transactions = work.transactions;
        self.random.shuffle(&mut draft.transactions);
        let eligible = self.eligible_sums(&draft);
        let tries = if self.random.percent(8) { 0 } else { self.random.between(1, 25) };
        let pairs = clearing_volumes(&mut self.random, &draft.wide_prices(), &eligible, tries);
        draft.set_volumes(&pairs);
        draft
    }

    fn add_some_transaction(&mut self, work: &mut Work) {
        if work.numbers.is_empty() {
            return;
        }
        match self.random.below(100) {
            0..=29 => self.add_pay(work),
            30..=79 => self.add_offer(work),
            80..=92 => self.add_cancel(work),
            _ => self.add_create(work),
        };
    }

    /// The next sequence number of an account; none if it has used up its reach.
    fn next_sequence(&mut self, work: &mut Work, number: u32) -> Option<u32> {
        let floor = self.exchange.accounts()[&number].floor;
        let end = u64::from(floor) + 64;
        let last = u64::from(work.last[&number]);
        let step = match self.random.below(60) {
            0 => end.saturating_sub(last),
            1..=5 => self.random.between(1, 5),
            _ => 1,
        };
        let next = last + step.max(1);
        if next > end || next > u64::from(u32::MAX) {
            return None;
        }
        work.last.insert(number, next as u32);
        Some(next as u32)
    }

    fn push(&mut self, work: &mut Work, source: u32, action: Action) -> bool {
        let Some(sequence) = self.next_sequence(work, source) else {
            return false;
        };
        work.transactions.push(Transaction { source, sequence, action });
        true
    }

    /// Part of a free amount, at least 1; none if nothing is free.
    fn part_of(&mut self, free: u64) -> Option<u64> {
        if free == 0 {
            return None;
        }
        Some(match self.random.below(10) {
            0 => free,
            1 => 1,
            2..=4 => self.random.between(1, free),
            _ => self.random.between(1, free / 5 + 1),
        })
    }

    pub fn add_pay(&mut self, work: &mut Work) -> bool {
        let source = self.random.one_of(&work.numbers);
        let receiver = self.random.one_of(&work.numbers);
        let asset = self.random.below(ASSETS as u64) as u8;
        let place = usize::from(asset);
        let Some(mut amount) = self.part_of(work.free[&source][place]) else {
            return false;
        };
        if source == receiver && self.random.percent(30) {
            // By its net, a payment to oneself needs no balance at all.
            amount = self.random.between(1, TOP_AMOUNT);
        }
        let mut memo = [0; 16];
        for byte in &mut memo {
            *byte = self.random.draw() as u8;
        }
        if !self.push(work, source, Action::Pay { receiver, asset, amount, memo }) {
            return false;
        }
        if source != receiver {
            work.free.get_mut(&source).expect("it stands")[place] -= amount;
            work.free.get_mut(&receiver).expect("it stands")[place] += amount;
        }
        true
    }

    /// Two different assets, mostly of those that are active.
    pub fn a_pair(&mut self) -> (u8, u8) {
        let all: Vec<u8> = (0..ASSETS as u8).collect();
        let few = self.random.percent(90);
        loop {
            let from = if few { &self.active } else { &all };
            let (sold, bought) = (self.random.one_of(from), self.random.one_of(from));
            if sold != bought {
                return (sold, bought);
            }
        }
    }

    /// A limit about the edge of eligibility, or anywhere.
    fn a_limit(&mut self, edge: u32) -> u32 {
        let edge = u64::from(edge);
        let limit = match self.random.below(20) {
            0..=4 => edge,
            5 | 6 => edge + 1,
            7..=13 => self.random.between(edge / 2, edge),
            14 | 15 => self.random.between(edge, edge * 2),
            16 => 1,
            17 => u64::from(u32::MAX),
            18 => u64::from(self.random.four()),
            _ => edge - edge / 10,
        };
        limit.clamp(1, u64::from(u32::MAX)) as u32
    }

    pub fn add_offer(&mut self, work: &mut Work) -> bool {
        let source = self.random.one_of(&work.numbers);
        let (sold, bought) = self.a_pair();
        let place = usize::from(sold);
        let Some(amount) = self.part_of(work.free[&source][place]) else {
            return false;
        };
        let limit = self.a_limit(highest_limit(sold, bought, &work.prices));
        self.place_offer(work, source, (sold, bought), limit, amount)
    }

    /// Eligible offers that can trade with each other round a cycle, as far as
    /// accounts can be found that have enough.
    fn add_cycle_of_offers(&mut self, work: &mut Work) {
        let mut cycle: Vec<usize> = self.active.iter().map(|asset| usize::from(*asset)).collect();
        self.random.shuffle(&mut cycle);
        cycle.truncate(self.random.one_of(&[2, 3, 3, 4, 5]));
        let Some(worth) = common_worth(&work.prices, &cycle) else {
            return;
        };
        let rounds = self.random.one_of(&[1, 2, 7, 30, 1_000]);
        for (sold, bought) in pairs_of(&cycle) {
            let whole = rounds * (worth / work.prices[sold]);
            let amount = self.random.between(whole.min(TOP_AMOUNT), (whole + whole / 3).min(TOP_AMOUNT));
            let pair = (sold as u8, bought as u8);
            let edge = u64::from(highest_limit(pair.0, pair.1, &work.prices));
            let limit = self.random.between((edge / 2).max(1), edge.max(1)) as u32;
            let able = |number: &u32| work.free[number][sold] >= amount;
            let owners: Vec<u32> = work.numbers.iter().copied().filter(able).collect();
            if !owners.is_empty() {
                let source = self.random.one_of(&owners);
                self.place_offer(work, source, pair, limit, amount);
            }
        }
    }

    /// Places an offer if the book will hold it.
    fn place_offer(
        &mut self,
        work: &mut Work,
        source: u32,
        (sold, bought): (u8, u8),
        limit: u32,
        amount: u64,
    ) -> bool {
        let new = work.transactions.iter().filter(|t| matches!(t.action, Action::Offer { .. })).count();
        let standing = self.exchange.offers().len() - work.cancelled.len();
        let place = usize::from(sold);
        if standing + new >= self.exchange.bounds().offer_capacity || work.free[&source][place] < amount {
            return false;
        }
        if !self.push(work, source, Action::Offer { sold, bought, limit, amount }) {
            return false;
        }
        work.free.get_mut(&source).expect("it stands")[place] -= amount;
        true
    }

    /// Some standing offer.
    pub fn standing_offer(&mut self) -> Option<(Key, u64)> {
        let offers = self.exchange.offers();
        if offers.is_empty() {
            return None;
        }
        let place = self.random.place(offers.len());
        offers.iter().nth(place).map(|(key, amount)| (*key, *amount))
    }

    pub fn add_cancel(&mut self, work: &mut Work) -> bool {
        let Some((key, amount)) = self.standing_offer() else {
            return false;
        };
        if work.cancelled.contains(&key) || !self.push(work, key.account, cancel_of(&key)) {
            return false;
        }
        work.cancelled.insert(key);
        work.free.get_mut(&key.account).expect("it stands")[usize::from(key.sold)] += amount;
        true
    }

    pub fn add_create(&mut self, work: &mut Work) -> bool {
        let count = self.exchange.accounts().len() + work.created.len();
        let account = self.absent_number();
        if count >= self.exchange.bounds().account_capacity || work.created.contains(&account) {
            return false;
        }
        let source = self.random.one_of(&work.numbers);
        if !self.push(work, source, Action::Create { account }) {
            return false;
        }
        work.created.insert(account);
        true
    }

    // Volumes.

    /// For each pair, the sum of the eligible offers in trade.
    pub fn eligible_sums(&self, draft: &Draft) -> Pairs {
        let prices = draft.wide_prices();
        let mut sums = [[0; ASSETS]; ASSETS];
        for (key, amount) in self.offers_in_trade(draft) {
            if key.limit <= highest_limit(key.sold, key.bought, &prices) {
                sums[usize::from(key.sold)][usize::from(key.bought)] += amount;
            }
        }
        sums
    }

    fn offers_in_trade(&self, draft: &Draft) -> Offers {
        let mut offers = self.exchange.offers().clone();
        for transaction in &draft.transactions {
            let account = transaction.source;
            match transaction.action {
                Action::Offer { sold, bought, limit, amount } => {
                    let sequence = transaction.sequence;
                    offers.insert(Key { sold, bought, limit, account, sequence }, amount);
                }
                Action::Cancel { sold, bought, limit, offered } => {
                    offers.remove(&Key { sold, bought, limit, account, sequence: offered });
                }
                _ => {}
            }
        }
        offers
    }
}

/// The action that cancels an offer.
pub fn cancel_of(key: &Key) -> Action {
    Action::Cancel { sold: key.sold, bought: key.bought, limit: key.limit, offered: key.sequence }
}

/// Gives one account all that is left of one asset.
fn use_up_one_asset(random: &mut Random, grants: &mut [Grant], left: &[u64; ASSETS]) {
    if grants.is_empty() {
        return;
    }
    let asset = random.place(ASSETS);
    let lucky = random.place(grants.len());
    grants[lucky].balances[asset] += left[asset];
}

fn greatest_divisor(a: u64, b: u64) -> u64 {
    if b == 0 {
        a
    } else {
        greatest_divisor(b, a % b)
    }
}

/// The least common multiple of the prices of some assets, if it is not too high.
pub fn common_worth(prices: &[u64; ASSETS], cycle: &[usize]) -> Option<u64> {
    let mut worth = 1u64;
    for asset in cycle {
        let price = prices[*asset];
        worth = worth.checked_mul(price / greatest_divisor(worth, price))?;
        if worth > TOP_WORTH {
            return None;
        }
    }
    Some(worth)
}

/// The pairs of a cycle: each asset is sold for the next.
pub fn pairs_of(cycle: &[usize]) -> impl Iterator<Item = (usize, usize)> + '_ {
    (0..cycle.len()).map(|place| (cycle[place], cycle[(place + 1) % cycle.len()]))
}

/// How many times the common worth may flow through a cycle.
pub fn most_rounds(prices: &[u64; ASSETS], left: &Pairs, cycle: &[usize], worth: u64) -> u64 {
    pairs_of(cycle).map(|(sold, bought)| left[sold][bought] / (worth / prices[sold])).min().unwrap_or(0)
}

/// Some assets in a cycle.
pub fn some_cycle(random: &mut Random) -> Vec<usize> {
    let mut cycle: Vec<usize> = (0..ASSETS).collect();
    random.shuffle(&mut cycle);
    cycle.truncate(random.one_of(&[2, 2, 3, 3, 3, 4, 5, 6, 8]));
    cycle
}

/// A cycle that runs through pairs which have something left.
fn open_cycle(random: &mut Random, left: &Pairs) -> Option<Vec<usize>> {
    let sellable = |asset: &usize| left[*asset].iter().any(|amount| *amount > 0);
    let starts: Vec<usize> = (0..ASSETS).filter(sellable).collect();
    if starts.is_empty() {
        return None;
    }
    let start = random.one_of(&starts);
    let mut cycle = vec![start];
    loop {
        let here = *cycle.last().expect("it is never empty");
        let ways: Vec<usize> =
            (0..ASSETS).filter(|next| left[here][*next] > 0 && !cycle[1..].contains(next)).collect();
        if ways.is_empty() {
            return None;
        }
        let next = random.one_of(&ways);
        if next == start {
            return Some(cycle);
        }
        cycle.push(next);
    }
}

/// Volumes that clear exactly and do not exceed the eligible sums.
pub fn clearing_volumes(random: &mut Random, prices: &[u64; ASSETS], eligible: &Pairs, tries: u64) -> Pairs {
    let mut left = *eligible;
    let mut volumes = [[0; ASSETS]; ASSETS];
    for _ in 0..tries {
        if random.percent(25) {
            add_forked_flow(random, prices, &mut left, &mut volumes);
        } else {
            add_cycle(random, prices, &mut left, &mut volumes);
        }
    }
    volumes
}

/// Moves an amount of a pair from what is left to the volumes.
fn shift(left: &mut Pairs, volumes: &mut Pairs, (sold, bought): (usize, usize), amount: u64) {
    left[sold][bought] -= amount;
    volumes[sold][bought] += amount;
}

/// One more cycle, if there is an open one through which something can flow.
fn add_cycle(random: &mut Random, prices: &[u64; ASSETS], left: &mut Pairs, volumes: &mut Pairs) {
    let Some(cycle) = open_cycle(random, left) else {
        return;
    };
    let Some(worth) = common_worth(prices, &cycle) else {
        return;
    };
    let most = most_rounds(prices, left, &cycle, worth);
    if most == 0 {
        return;
    }
    let rounds = if random.percent(50) { most } else { random.between(1, most) };
    for (sold, bought) in pairs_of(&cycle) {
        shift(left, volumes, (sold, bought), rounds * (worth / prices[sold]));
    }
}

/// A flow from a to b that comes back on two ways, straight and by c. Its two
/// cycles need not be whole each by itself.
fn add_forked_flow(random: &mut Random, prices: &[u64; ASSETS], left: &mut Pairs, volumes: &mut Pairs) {
    let cycle = some_cycle(random);
    let [a, b, c] = match cycle[..] {
        [a, b, c, ..] => [a, b, c],
        _ => return,
    };
    let Some(by_c_unit) = common_worth(prices, &[b, c]) else {
        return;
    };
    let by_c = by_c_unit * random.between(1, 4);
    let Some(straight) = (0..200).map(|n| n * prices[b]).find(|w| (w + by_c).is_multiple_of(prices[a]))
    else {
        return;
    };
    let flows = [
        ((a, b), (straight + by_c) / prices[a]),
        ((b, a), straight / prices[b]),
        ((b, c), by_c / prices[b]),
        ((c, a), by_c / prices[c]),
    ];
    if flows.iter().all(|((sold, bought), amount)| left[*sold][*bought] >= *amount) {
        for (pair, amount) in flows {
            shift(left, volumes, pair, amount);
        }
    }
}

// The kinds of whole streams that have no deliberate fault.

/// A founding and a handful of good blocks.
pub fn small(seed: u64) -> Vec<u8> {
    let mut maker = small_start(seed);
    let blocks = maker.random.between(1, 8);
    for _ in 0..blocks {
        maker.add_small_block();
    }
    maker.stream
}

/// A maker that has founded a few accounts.
pub fn small_start(seed: u64) -> Maker {
    let mut maker = Maker::new(seed);
    let count = match maker.random.below(40) {
        0 => 0,
        1 => 1,
        2 => maker.random.between(30, 120),
        _ => maker.random.between(2, 12),
    };
    let grants = maker.grants(count as usize);
    maker.add_founding(&grants);
    maker
}

impl Maker {
    /// A good block of a small stream; now and then an empty one or, if there
    /// is room for it, a full one.
    pub fn add_small_block(&mut self) -> bool {
        let transactions = match self.random.below(50) {
            0 => 0,
            1 | 2 if self.exchange.accounts().len() >= 20 && self.stream.len() < 20_000 => {
                MOST_TRANSACTIONS as u64
            }
            3..=9 => self.random.between(30, 80),
            _ => self.random.between(3, 30),
        };
        let draft = self.good_draft(transactions as usize);
        self.add_block(&draft.bytes())
    }
}

/// Prices of the full kinds; the least common multiple of all is 720,000.
const STEPS: [u32; 10] = [6, 8, 9, 10, 12, 15, 16, 18, 20, 24];

/// A founding of 256 accounts and blocks of so many transactions each, with
/// about a thousand resting offers.
pub fn full(seed: u64, blocks: u64, transactions: usize) -> Vec<u8> {
    let mut maker = Maker::new(seed);
    maker.active = (0..ASSETS as u8).collect();
    let numbers = maker.account_numbers(256);
    let grants: Vec<Grant> =
        numbers.into_iter().map(|account| Grant { account, balances: [200_000_000; ASSETS] }).collect();
    maker.add_founding(&grants);
    let mut steps = [4; ASSETS];
    for _ in 0..blocks {
        let draft = maker.full_draft(&mut steps, transactions);
        assert!(maker.add_block(&draft.bytes()), "full blocks are good");
    }
    maker.stream
}

impl Maker {
    /// Lets some prices move a step up or down.
    fn move_prices(&mut self, steps: &mut [usize; ASSETS]) -> [u32; ASSETS] {
        for step in steps.iter_mut() {
            match self.random.below(4) {
                0 => *step = (*step + 1).min(STEPS.len() - 1),
                1 => *step = step.saturating_sub(1),
                _ => {}
            }
        }
        steps.map(|step| STEPS[step] * 1_000)
    }

    fn full_draft(&mut self, steps: &mut [usize; ASSETS], transactions: usize) -> Draft {
        let mut draft = self.empty_draft();
        draft.prices = self.move_prices(steps);
        let mut work = self.start_work(&draft);
        let standing = self.exchange.offers().len();
        let cancels = if standing < 500 { 0 } else { transactions / 6 };
        let offers = (self.exchange.bounds().offer_capacity - standing + cancels).min(transactions - cancels);
        fill_up(&mut work, cancels, |work| self.add_cancel(work));
        fill_up(&mut work, offers, |work| self.add_full_offer(work));
        let rest = transactions - work.transactions.len();
        fill_up(&mut work, rest, |work| self.add_full_pay(work));
        draft.transactions = work.transactions;
        self.random.shuffle(&mut draft.transactions);
        let eligible = self.eligible_sums(&draft);
        let pairs = clearing_volumes(&mut self.random, &draft.wide_prices(), &eligible, 40);
        draft.set_volumes(&pairs);
        draft
    }

    fn add_full_offer(&mut self, work: &mut Work) -> bool {
        let source = self.random.one_of(&work.numbers);
        let pair = self.a_pair();
        let edge = u64::from(highest_limit(pair.0, pair.1, &work.prices));
        let limit = self.random.between(edge * 90 / 100, edge * 115 / 100) as u32;
        let amount = self.random.between(1, 10_000);
        self.place_offer(work, source, pair, limit, amount)
    }

    fn add_full_pay(&mut self, work: &mut Work) -> bool {
        let source = self.random.one_of(&work.numbers);
        let receiver = self.random.one_of(&work.numbers);
        let asset = self.random.place(ASSETS);
        let amount = self.random.between(1, 10_000).min(work.free[&source][asset]);
        let memo = [self.random.draw() as u8; 16];
        let action = Action::Pay { receiver, asset: asset as u8, amount, memo };
        if amount == 0 || !self.push(work, source, action) {
            return false;
        }
        work.free.get_mut(&source).expect("it stands")[asset] -= amount;
        work.free.get_mut(&receiver).expect("it stands")[asset] += amount;
        true
    }
}

/// Calls until so many calls have succeeded, or far too many have failed.
fn fill_up(work: &mut Work, count: usize, mut add: impl FnMut(&mut Work) -> bool) {
    let mut done = 0;
    for _ in 0..count * 20 {
        if done == count {
            return;
        }
        if add(work) {
            done += 1;
        }
    }
}
