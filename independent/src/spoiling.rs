//! Streams with deliberate faults, damaged streams, and twins.
//!
//! A spoiled block stands among good ones, so that the good ones after it show
//! whether a refusal left everything as it was. What is spoiled with a number
//! in mind may come out with a smaller number, or even good, at the edges.

use std::collections::BTreeMap;

use crate::exchange::highest_limit;
use crate::listing::MOST_INPUT;
use crate::making::{
    cancel_of, common_worth, most_rounds, pairs_of, small, small_start, some_cycle, Draft, Maker,
};
use crate::random::Random;
use crate::reading::{
    length, read_block, read_founding, width, Action, Command, Grant, Transaction, Volume, ASSETS,
    MOST_TRANSACTIONS, TOP_AMOUNT, TOP_PRICE,
};
use crate::writing::write_all;

/// What a faulty stream is about.
#[derive(Clone, Copy, Debug, PartialEq, Eq)]
pub enum Aim {
    /// A fault of a block, 1 to 21.
    Block(u32),
    /// A fault of a founding: 15, 19 or 23.
    Founding(u32),
    /// Operands at the edges of their ranges, within and without.
    Edges,
}

/// A faulty stream; the aim is chosen by the seed if none is given.
pub fn faulty(seed: u64, aim: Option<Aim>) -> Vec<u8> {
    let mut random = Random::new(seed ^ 0x5eed_fa17);
    let aim = aim.unwrap_or_else(|| some_aim(&mut random));
    match aim {
        Aim::Founding(number) => faulty_founding(seed, number),
        Aim::Block(1) => too_long(seed),
        Aim::Block(19) => too_many_accounts(seed),
        Aim::Block(20) => too_many_offers(seed),
        Aim::Block(number) => with_spoiled_block(seed, &mut random, number),
        Aim::Edges => with_edges(seed),
    }
}

fn some_aim(random: &mut Random) -> Aim {
    match random.below(100) {
        0..=8 => Aim::Founding(random.one_of(&[15, 19, 23])),
        9..=18 => Aim::Edges,
        // 19 and 20 need long streams and come less often.
        19..=26 => Aim::Block(random.one_of(&[1, 19, 20])),
        27..=40 => Aim::Block(random.one_of(&[2, 3, 4, 4, 4, 5, 6, 7])),
        _ => Aim::Block(random.one_of(&[8, 9, 10, 11, 12, 13, 14, 15, 16, 16, 17, 17, 18, 18, 21, 21])),
    }
}

// A spoiled block among good ones.

fn with_spoiled_block(seed: u64, random: &mut Random, number: u32) -> Vec<u8> {
    let mut maker = small_start(seed);
    let before = maker.random.between(u64::from(number >= 16), 4);
    for _ in 0..before {
        maker.add_small_block();
    }
    let size = maker.random.between(2, 40);
    let mut draft = maker.good_draft(size as usize);
    if number >= 8 {
        spoil_some(&mut maker, random, &mut draft, number);
        maker.add_block(&draft.bytes());
    } else {
        if random.percent(25) {
            // A fault of the bytes comes before any other.
            let second = random.between(8, 21) as u32;
            spoil(&mut maker, &mut draft, second);
        }
        let bytes = spoiled_bytes(&mut maker, &draft, number);
        maker.add_block(&bytes);
    }
    let after = maker.random.below(3);
    for _ in 0..after {
        maker.add_small_block();
    }
    if number == 2 {
        cut_end(&mut maker);
    }
    maker.stream
}

/// One fault, or two, or several.
fn spoil_some(maker: &mut Maker, random: &mut Random, draft: &mut Draft, number: u32) {
    spoil(maker, draft, number);
    match random.below(10) {
        0..=5 => {}
        6..=8 => spoil(maker, draft, random.between(8, 21) as u32),
        _ => {
            for _ in 0..random.between(2, 5) {
                let other = if random.percent(50) { number } else { random.between(8, 21) as u32 };
                spoil(maker, draft, other);
            }
        }
    }
    if random.percent(50) {
        random.shuffle(&mut draft.transactions);
    }
}

/// Spoils a draft with a fault of 8 to 21 in mind.
fn spoil(maker: &mut Maker, draft: &mut Draft, number: u32) {
    match number {
        8 => spoil_height(maker, draft),
        9 => spoil_parent(maker, draft),
        10 => spoil_clearing(maker, draft),
        11 => spoil_source(maker, draft),
        12 => spoil_sequence(maker, draft),
        13 => spoil_name(maker, draft),
        14 => spoil_receiver(maker, draft),
        15 => spoil_creation(maker, draft),
        16 => spoil_cancellation(maker, draft),
        17 => cancel_twice(maker, draft),
        18 => overspend(maker, draft),
        21 => oversell(maker, draft),
        // 19 and 20 have streams of their own.
        _ => spoil_sequence(maker, draft),
    }
}

fn spoil_height(maker: &mut Maker, draft: &mut Draft) {
    let height = maker.exchange.height();
    draft.height = maker.random.one_of(&[
        height,
        height.wrapping_add(2),
        height.wrapping_sub(1),
        0,
        u32::MAX,
        height ^ 0x0100_0000,
    ]);
}

fn spoil_parent(maker: &mut Maker, draft: &mut Draft) {
    if maker.random.percent(20) {
        draft.parent = [0; 32];
    } else {
        let bit = maker.random.place(256);
        draft.parent[bit / 8] ^= 1 << (bit % 8);
    }
}

/// Lets one volume be a little more or less, or puts in one that nothing answers.
fn spoil_clearing(maker: &mut Maker, draft: &mut Draft) {
    let mut pairs = draft.pairs();
    if draft.volumes.is_empty() || maker.random.percent(30) {
        let (sold, bought) = maker.a_pair();
        pairs[usize::from(sold)][usize::from(bought)] += maker.random.between(1, 3);
    } else {
        let volume = maker.random.one_of(&draft.volumes);
        let amount = &mut pairs[usize::from(volume.sold)][usize::from(volume.bought)];
        *amount = if maker.random.percent(50) { *amount + 1 } else { *amount - 1 };
    }
    draft.set_volumes(&pairs);
}

/// A transaction of the draft; one is put in if there is none.
fn some_transaction<'a>(maker: &mut Maker, draft: &'a mut Draft) -> &'a mut Transaction {
    if draft.transactions.is_empty() {
        let account = maker.absent_number();
        add(maker, draft, Action::Create { account });
    }
    let place = maker.random.place(draft.transactions.len());
    &mut draft.transactions[place]
}

/// Some account that stands, or 1 if there is none.
fn some_account(maker: &mut Maker) -> u32 {
    let numbers: Vec<u32> = maker.exchange.accounts().keys().copied().collect();
    if numbers.is_empty() {
        return 1;
    }
    maker.random.one_of(&numbers)
}

/// A sequence number that is good for an account and not yet used in the draft.
fn unused_sequence(maker: &Maker, draft: &Draft, source: u32) -> u32 {
    let floor = maker.exchange.accounts().get(&source).map_or(0, |account| account.floor);
    let used = |sequence: u32| draft.transactions.iter().any(|t| t.name() == (source, sequence));
    (1..=64)
        .map(|step| floor.saturating_add(step))
        .find(|sequence| !used(*sequence))
        .unwrap_or(floor.saturating_add(64))
}

/// Adds a transaction of some account.
fn add(maker: &mut Maker, draft: &mut Draft, action: Action) {
    let source = some_account(maker);
    add_from(maker, draft, source, action);
}

/// Adds a transaction of a given account at some place.
fn add_from(maker: &mut Maker, draft: &mut Draft, source: u32, action: Action) {
    let sequence = unused_sequence(maker, draft, source);
    let place = maker.random.place(draft.transactions.len() + 1);
    draft.transactions.insert(place, Transaction { source, sequence, action });
}

/// The accounts that the draft creates.
fn created_in(draft: &Draft) -> Vec<u32> {
    draft
        .transactions
        .iter()
        .filter_map(|transaction| match transaction.action {
            Action::Create { account } => Some(account),
            _ => None,
        })
        .collect()
}

/// A number that neither stands nor is created in the draft.
fn fresh_number(maker: &mut Maker, draft: &Draft) -> u32 {
    let created = created_in(draft);
    loop {
        let number = maker.absent_number();
        if !created.contains(&number) {
            return number;
        }
    }
}

/// A number that does not stand, often one that the draft itself creates.
fn not_standing(maker: &mut Maker, draft: &mut Draft) -> u32 {
    if maker.random.percent(60) {
        return maker.absent_number();
    }
    if created_in(draft).is_empty() {
        let account = maker.absent_number();
        add(maker, draft, Action::Create { account });
    }
    maker.random.one_of(&created_in(draft))
}

fn spoil_source(maker: &mut Maker, draft: &mut Draft) {
    let number = not_standing(maker, draft);
    some_transaction(maker, draft).source = number;
}

fn spoil_sequence(maker: &mut Maker, draft: &mut Draft) {
    let choice = maker.random.place(8);
    let source = some_transaction(maker, draft).source;
    let floor = maker.exchange.accounts().get(&source).map_or(0, |account| account.floor);
    let sequence = [
        floor,
        floor.wrapping_sub(1),
        floor.wrapping_add(65),
        floor.wrapping_add(65),
        floor.wrapping_add(66),
        0,
        u32::MAX,
        // The last good one.
        floor.wrapping_add(64),
    ][choice];
    let own = draft.transactions.iter_mut().find(|transaction| transaction.source == source);
    own.expect("it was found before").sequence = sequence;
}

fn spoil_name(maker: &mut Maker, draft: &mut Draft) {
    let copied = some_transaction(maker, draft).clone();
    if maker.random.percent(30) {
        draft.transactions.push(copied);
        return;
    }
    let account = maker.absent_number();
    let place = maker.random.place(draft.transactions.len() + 1);
    let twin = Transaction { action: Action::Create { account }, ..copied };
    draft.transactions.insert(place, twin);
}

fn spoil_receiver(maker: &mut Maker, draft: &mut Draft) {
    let receiver = not_standing(maker, draft);
    let asset = maker.random.below(ASSETS as u64) as u8;
    add(maker, draft, Action::Pay { receiver, asset, amount: 1, memo: [7; 16] });
}

fn spoil_creation(maker: &mut Maker, draft: &mut Draft) {
    let account = if maker.random.percent(50) {
        some_account(maker)
    } else {
        let created = created_in(draft);
        let account = match created.is_empty() {
            true => maker.absent_number(),
            false => maker.random.one_of(&created),
        };
        add(maker, draft, Action::Create { account });
        account
    };
    add(maker, draft, Action::Create { account });
}

fn spoil_cancellation(maker: &mut Maker, draft: &mut Draft) {
    let Some((mut key, _)) = maker.standing_offer() else {
        let (sold, bought) = maker.a_pair();
        add(maker, draft, Action::Cancel { sold, bought, limit: 1, offered: 1 });
        return;
    };
    match maker.random.below(6) {
        0 => key.limit = (key.limit ^ 1).max(1),
        1 => key.sequence ^= 1,
        2 => key.account = some_account(maker),
        3 => std::mem::swap(&mut key.sold, &mut key.bought),
        4 => key.limit = (key.limit ^ 0x8000_0000).max(1),
        _ => {
            cancel_new_offer(maker, draft);
            return;
        }
    }
    add_from(maker, draft, key.account, cancel_of(&key));
}

/// Cancels an offer that the same draft places.
fn cancel_new_offer(maker: &mut Maker, draft: &mut Draft) {
    let new = draft.transactions.iter().find_map(|transaction| match transaction.action {
        Action::Offer { sold, bought, limit, .. } => {
            Some((transaction.source, Action::Cancel { sold, bought, limit, offered: transaction.sequence }))
        }
        _ => None,
    });
    if let Some((source, cancel)) = new {
        add_from(maker, draft, source, cancel);
    }
}

fn cancel_twice(maker: &mut Maker, draft: &mut Draft) {
    if let Some((key, _)) = maker.standing_offer() {
        add_from(maker, draft, key.account, cancel_of(&key));
        add_from(maker, draft, key.account, cancel_of(&key));
    }
}

/// Balance plus net of each account under a draft.
fn projected(maker: &Maker, draft: &Draft) -> BTreeMap<u32, [i64; ASSETS]> {
    let accounts = maker.exchange.accounts();
    let mut all: BTreeMap<u32, [i64; ASSETS]> =
        accounts.iter().map(|(number, account)| (*number, account.balances.map(|b| b as i64))).collect();
    for transaction in &draft.transactions {
        let mut change = |account: u32, asset: u8, amount: i64| {
            if let Some(balances) = all.get_mut(&account) {
                balances[usize::from(asset)] += amount;
            }
        };
        let source = transaction.source;
        match transaction.action {
            Action::Pay { receiver, asset, amount, .. } => {
                change(source, asset, -(amount as i64));
                change(receiver, asset, amount as i64);
            }
            Action::Offer { sold, amount, .. } => change(source, sold, -(amount as i64)),
            Action::Cancel { sold, bought, limit, offered } => {
                let key = crate::exchange::Key { sold, bought, limit, account: source, sequence: offered };
                let amount = maker.exchange.offers().get(&key).copied().unwrap_or(0);
                change(source, sold, amount as i64);
            }
            Action::Create { .. } => {}
        }
    }
    all
}

/// Lets an account spend one more than it has; now and then exactly all.
fn overspend(maker: &mut Maker, draft: &mut Draft) {
    let source = some_account(maker);
    let asset = maker.random.below(ASSETS as u64) as u8;
    let left = projected(maker, draft).get(&source).map_or(0, |balances| balances[usize::from(asset)]);
    let amount = match maker.random.below(10) {
        0 => left,
        1 => TOP_AMOUNT as i64,
        _ => left.saturating_add(1),
    };
    let amount = amount.clamp(1, TOP_AMOUNT as i64) as u64;
    let action = if maker.random.percent(50) {
        let receiver = some_account(maker);
        Action::Pay { receiver, asset, amount, memo: [0; 16] }
    } else {
        let bought = (asset + 1) % ASSETS as u8;
        Action::Offer { sold: asset, bought, limit: u32::MAX, amount }
    };
    add_from(maker, draft, source, action);
}

/// Lets a pair's volume exceed its eligible offers, while the volumes clear.
fn oversell(maker: &mut Maker, draft: &mut Draft) {
    if !draft.volumes.is_empty() && maker.random.percent(40) {
        lift_limit(maker, draft);
    } else {
        add_cycle_beyond(maker, draft);
    }
}

/// Lifts the limit of a new eligible offer just above the edge.
fn lift_limit(maker: &mut Maker, draft: &mut Draft) {
    let prices = draft.wide_prices();
    let volume = maker.random.one_of(&draft.volumes);
    let edge = highest_limit(volume.sold, volume.bought, &prices);
    for transaction in &mut draft.transactions {
        if let Action::Offer { sold, bought, limit, .. } = &mut transaction.action {
            if (*sold, *bought) == (volume.sold, volume.bought) && *limit <= edge {
                *limit = edge.saturating_add(1);
                return;
            }
        }
    }
}

/// One round more in some cycle than the eligible offers allow.
fn add_cycle_beyond(maker: &mut Maker, draft: &mut Draft) {
    let prices = draft.wide_prices();
    let mut pairs = draft.pairs();
    let mut left = maker.eligible_sums(draft);
    for sold in 0..ASSETS {
        for bought in 0..ASSETS {
            left[sold][bought] = left[sold][bought].saturating_sub(pairs[sold][bought]);
        }
    }
    let cycle = some_cycle(&mut maker.random);
    let Some(worth) = common_worth(&prices, &cycle) else {
        return;
    };
    let rounds = most_rounds(&prices, &left, &cycle, worth) + 1;
    for (sold, bought) in pairs_of(&cycle) {
        let more = rounds.saturating_mul(worth / prices[sold]);
        pairs[sold][bought] = pairs[sold][bought].saturating_add(more).min(TOP_AMOUNT);
    }
    draft.set_volumes(&pairs);
}

// Faults of the bytes.

/// The bytes of a draft, spoiled with a fault of 2 to 7 in mind.
fn spoiled_bytes(maker: &mut Maker, draft: &Draft, number: u32) -> Vec<u8> {
    let mut commands = draft.commands();
    match number {
        3 => {
            let mut bytes = write_all(&commands);
            spoil_letter(maker, &mut bytes);
            return bytes;
        }
        4 => spoil_turn(maker, &mut commands),
        5 => spoil_operand(maker, &mut commands),
        6 => too_many_transactions(maker, &mut commands),
        7 => {
            let mut bytes = write_all(&commands);
            let more = maker.random.between(1, 5);
            for _ in 0..more {
                bytes.push(maker.random.one_of(b"EEEBPVATOCG\0\xffx"));
            }
            return bytes;
        }
        _ => {}
    }
    write_all(&commands)
}

/// The places of the letters of some bytes, as far as they can be told.
fn letter_places(bytes: &[u8]) -> Vec<usize> {
    let mut places = Vec::new();
    let mut place = 0;
    while let Some(width) = bytes.get(place).and_then(|letter| width(*letter)) {
        places.push(place);
        place += width;
    }
    places
}

fn spoil_letter(maker: &mut Maker, bytes: &mut [u8]) {
    let places = letter_places(bytes);
    let place = maker.random.one_of(&places);
    bytes[place] = match maker.random.below(4) {
        0 => 0,
        1 => bytes[place] ^ 0x20,
        2 => maker.random.one_of(b"DFHIJKLMNQRSUWXYZ@[`"),
        _ => maker.random.draw() as u8,
    };
}

/// Puts commands out of turn: one is taken out, doubled, moved or put in.
fn spoil_turn(maker: &mut Maker, commands: &mut Vec<Command>) {
    let random = &mut maker.random;
    let place = random.place(commands.len() - 1);
    match random.below(6) {
        0 => {
            commands.remove(place);
        }
        1 => {
            let same = commands[place].clone();
            commands.insert(place, same);
        }
        2 => {
            let other = random.place(commands.len() - 1);
            commands.swap(place, other);
        }
        3 => {
            let moved = commands.remove(place);
            let to = random.place(commands.len());
            commands.insert(to, moved);
        }
        4 => {
            let foreign = foreign_command(random);
            commands.insert(place, foreign);
        }
        _ => odd_asset(random, commands),
    }
}

/// A command that may be out of turn, with operands in range or not.
fn foreign_command(random: &mut Random) -> Command {
    let bad = random.percent(30);
    match random.below(5) {
        0 => Command::Begin { height: random.four(), parent: [0; 32] },
        1 => Command::Price { asset: random.below(10) as u8, price: if bad { 0 } else { 1 } },
        2 => Command::Volume(Volume {
            sold: random.below(9) as u8,
            bought: random.below(9) as u8,
            amount: if bad { 0 } else { 1 },
        }),
        3 => Command::Grant(Grant { account: u32::from(!bad), balances: [1; ASSETS] }),
        _ => Command::End,
    }
}

/// Changes the asset of a price or the pair of a volume.
fn odd_asset(random: &mut Random, commands: &mut [Command]) {
    let movable = |command: &Command| matches!(command, Command::Price { .. } | Command::Volume(_));
    let count = commands.iter().filter(|command| movable(command)).count();
    let chosen = random.place(count);
    let odd = random.one_of(&[0, 1, 6, 7, 8, 9, 255]);
    match commands.iter_mut().filter(|command| movable(command)).nth(chosen) {
        Some(Command::Price { asset, .. }) => *asset = odd,
        Some(Command::Volume(volume)) if random.percent(50) => volume.sold = odd,
        Some(Command::Volume(volume)) => volume.bought = odd,
        _ => {}
    }
}

/// Sets an operand of some command to a value at the edge of its range. All
/// kinds of command come about equally often.
fn spoil_operand(maker: &mut Maker, commands: &mut Vec<Command>) {
    let kind = maker.random.below(6);
    let fits = |command: &Command| match command {
        Command::Price { .. } => kind == 0,
        Command::Volume(_) => kind == 1,
        Command::Transaction(transaction) => match transaction.action {
            Action::Create { .. } => kind == 2,
            Action::Pay { .. } => kind == 3,
            Action::Offer { .. } => kind == 4,
            Action::Cancel { .. } => kind == 5,
        },
        _ => false,
    };
    if !commands.iter().any(fits) {
        let before = if kind == 1 { 9 } else { commands.len() - 1 };
        let new = plain_command(maker, kind);
        commands.insert(before, new);
    }
    let count = commands.iter().filter(|command| fits(command)).count();
    let chosen = maker.random.place(count);
    if let Some(command) = commands.iter_mut().filter(|command| fits(command)).nth(chosen) {
        set_edge(&mut maker.random, command);
    }
}

/// A plain command of a kind, with operands in range.
fn plain_command(maker: &mut Maker, kind: u64) -> Command {
    let source = some_account(maker);
    let sequence = maker.exchange.accounts().get(&source).map_or(1, |a| a.floor.saturating_add(60));
    let action = match kind {
        1 => return Command::Volume(Volume { sold: 0, bought: 1, amount: 1 }),
        2 => Action::Create { account: maker.absent_number() },
        3 => Action::Pay { receiver: source, asset: 0, amount: 1, memo: [1; 16] },
        4 => Action::Offer { sold: 0, bought: 1, limit: 1, amount: 1 },
        _ => Action::Cancel { sold: 0, bought: 1, limit: 1, offered: 1 },
    };
    Command::Transaction(Transaction { source, sequence, action })
}

fn edge_asset(random: &mut Random) -> u8 {
    random.one_of(&[0, 7, 8, 8, 255])
}

fn edge_amount(random: &mut Random) -> u64 {
    random.one_of(&[0, 0, 1, TOP_AMOUNT, TOP_AMOUNT + 1, TOP_AMOUNT + 1, 1 << 63, u64::MAX])
}

fn edge_number(random: &mut Random) -> u32 {
    random.one_of(&[0, 0, 1, u32::MAX])
}

/// Two assets at the edges, or equal.
fn edge_pair(random: &mut Random, sold: &mut u8, bought: &mut u8) {
    match random.below(3) {
        0 => *sold = edge_asset(random),
        1 => *bought = edge_asset(random),
        _ => *sold = *bought,
    }
}

fn set_edge(random: &mut Random, command: &mut Command) {
    match command {
        Command::Price { price, .. } => {
            *price = random.one_of(&[0, 1, TOP_PRICE, TOP_PRICE + 1, u32::MAX]);
        }
        Command::Volume(volume) => match random.below(2) {
            0 => edge_pair(random, &mut volume.sold, &mut volume.bought),
            _ => volume.amount = edge_amount(random),
        },
        Command::Grant(grant) => match random.below(3) {
            0 => grant.account = edge_number(random),
            _ => grant.balances[random.place(ASSETS)] = edge_amount(random),
        },
        Command::Transaction(transaction) => set_edge_of_transaction(random, transaction),
        Command::Begin { height, .. } => *height = edge_number(random),
        Command::End => {}
    }
}

fn set_edge_of_transaction(random: &mut Random, transaction: &mut Transaction) {
    match random.below(8) {
        0 => {
            transaction.source = edge_number(random);
            return;
        }
        1 => {
            transaction.sequence = edge_number(random);
            return;
        }
        _ => {}
    }
    match &mut transaction.action {
        Action::Create { account } => *account = edge_number(random),
        Action::Pay { receiver, asset, amount, .. } => match random.below(3) {
            0 => *receiver = edge_number(random),
            1 => *asset = edge_asset(random),
            _ => *amount = edge_amount(random),
        },
        Action::Offer { sold, bought, limit, amount } => match random.below(3) {
            0 => edge_pair(random, sold, bought),
            1 => *limit = edge_number(random),
            _ => *amount = edge_amount(random),
        },
        Action::Cancel { sold, bought, limit, offered } => match random.below(3) {
            0 => edge_pair(random, sold, bought),
            1 => *limit = edge_number(random),
            _ => *offered = edge_number(random),
        },
    }
}

/// Fills a block up to about 1,024 transactions, mostly to one more.
fn too_many_transactions(maker: &mut Maker, commands: &mut Vec<Command>) {
    let end = commands.len() - 1;
    let count = commands.iter().filter(|c| matches!(c, Command::Transaction(_))).count();
    let wanted = MOST_TRANSACTIONS + maker.random.one_of(&[0, 1, 1, 1, 2, 10]);
    let source = some_account(maker);
    let filler = (count..wanted).map(|number| {
        let action = Action::Create { account: 1_000_000 + number as u32 };
        Command::Transaction(Transaction { source, sequence: number as u32, action })
    });
    let filler: Vec<Command> = filler.collect();
    commands.splice(end..end, filler);
    if maker.random.percent(30) {
        // A bad operand at or before the last transaction: 5 comes before 6.
        let place = maker.random.between(commands.len() as u64 - 12, commands.len() as u64 - 2);
        if let Command::Transaction(transaction) = &mut commands[place as usize] {
            transaction.source = 0;
        }
    }
}

/// Cuts the stream somewhere in its last part.
fn cut_end(maker: &mut Maker) {
    let most = maker.stream.len() as u64;
    let cut = maker.random.between(1, most.min(300));
    maker.stream.truncate((most - cut) as usize);
}

// Streams that need more room.

/// Pieces and streams about the longest that are taken.
fn too_long(seed: u64) -> Vec<u8> {
    let mut maker = small_start(seed);
    match maker.random.below(5) {
        0 => {
            // 579 grants are readable, though too many for the store; 580 are not.
            let mut other = Maker::new(seed);
            let count = 578 + other.random.below(4) as usize;
            let grants = other.grants(count);
            other.add_founding(&grants);
            return other.stream;
        }
        1 => fill_stream(&mut maker),
        _ => {
            let pieces = maker.random.below(3);
            for _ in 0..pieces {
                maker.add_small_block();
            }
            let block = long_block(&mut maker);
            if maker.stream.len() + block.len() < MOST_INPUT {
                maker.add_block(&block);
                maker.add_small_block();
            }
        }
    }
    maker.stream
}

/// A block of about 40,000 bytes.
fn long_block(maker: &mut Maker) -> Vec<u8> {
    // 86 bytes, and payments of 38 and creations of 13 bytes.
    let (pays, creates) = maker.random.one_of(&[
        (1_049, 4), // 40,000 bytes: transaction 1,025 is at fault
        (1_048, 7), // 40,001 bytes
        (1_060, 0),
        (1_000, 160),
    ]);
    let mut draft = maker.empty_draft();
    let source = some_account(maker);
    for number in 0..pays + creates {
        let action = if number < pays {
            Action::Pay { receiver: source, asset: 0, amount: 1, memo: [b'E'; 16] }
        } else {
            Action::Create { account: 500_000 + number }
        };
        draft.transactions.push(Transaction { source, sequence: number, action });
    }
    maker.random.shuffle(&mut draft.transactions);
    draft.bytes()
}

/// Good blocks until the stream has about 65,536 bytes.
fn fill_stream(maker: &mut Maker) {
    let goal = MOST_INPUT + maker.random.one_of(&[0, 1, 2, 100]);
    for _ in 0..4_000 {
        let before = maker.stream.len();
        let size = if goal - before > 4_000 { 60 } else { 0 };
        let draft = maker.good_draft(size);
        let bytes = draft.bytes();
        if before + bytes.len() > goal {
            break;
        }
        maker.add_block(&bytes);
    }
    // What is missing is made up by end commands: each is a piece by itself.
    maker.stream.resize(goal, b'E');
}

/// Creations up to the capacity and beyond it.
fn too_many_accounts(seed: u64) -> Vec<u8> {
    let mut maker = Maker::new(seed);
    let count = maker.random.between(245, 256) as usize;
    let grants = maker.grants(count);
    maker.add_founding(&grants);
    let extra = maker.random.between(0, 2) as usize;
    let size = maker.random.between(0, 10) as usize;
    let mut draft = maker.good_draft(size);
    let room = 256 - count - created_in(&draft).len();
    for _ in 0..room + extra {
        let account = fresh_number(&mut maker, &draft);
        add(&mut maker, &mut draft, Action::Create { account });
    }
    if maker.random.percent(30) {
        let second = maker.random.between(17, 21) as u32;
        spoil(&mut maker, &mut draft, second);
    }
    maker.add_block(&draft.bytes());
    maker.add_small_block();
    maker.add_small_block();
    maker.stream
}

/// Offers up to the capacity and beyond it.
fn too_many_offers(seed: u64) -> Vec<u8> {
    let mut maker = Maker::new(seed);
    let count = maker.random.between(20, 60) as u32;
    let grants: Vec<Grant> =
        (1..=count).map(|account| Grant { account, balances: [1_000_000_000; ASSETS] }).collect();
    maker.add_founding(&grants);
    let first = maker.random.between(900, 1_024) as usize;
    let mut draft = maker.empty_draft();
    add_offers(&mut maker, &mut draft, first);
    maker.add_block(&draft.bytes());
    let standing = maker.exchange.offers().len();
    let mut draft = maker.empty_draft();
    let cancels = maker.random.below(10) as usize;
    let keys: Vec<_> = maker.exchange.offers().keys().copied().step_by(7).take(cancels).collect();
    for key in &keys {
        add_from(&mut maker, &mut draft, key.account, cancel_of(key));
    }
    let extra = maker.random.between(0, 2) as usize;
    let room = 1_024 - (standing - keys.len());
    add_offers(&mut maker, &mut draft, room + extra);
    if maker.random.percent(30) {
        let second = maker.random.one_of(&[18, 21, 21]);
        spoil(&mut maker, &mut draft, second);
    }
    maker.add_block(&draft.bytes());
    maker.add_small_block();
    maker.stream
}

/// Puts offers of accounts 1, 2, 3 and so on in turn into a draft.
fn add_offers(maker: &mut Maker, draft: &mut Draft, count: usize) {
    let numbers: Vec<u32> = maker.exchange.accounts().keys().copied().collect();
    for place in 0..count {
        let source = numbers[place % numbers.len()];
        let (sold, bought) = maker.a_pair();
        let limit = maker.random.between(1, 200_000) as u32;
        let amount = maker.random.between(1, 1_000_000);
        add_from(maker, draft, source, Action::Offer { sold, bought, limit, amount });
    }
}

// Foundings.

fn faulty_founding(seed: u64, number: u32) -> Vec<u8> {
    let mut maker = Maker::new(seed);
    let count = match number {
        19 => maker.random.between(255, 259),
        _ => maker.random.between(2, 12),
    };
    let mut grants = maker.grants(count as usize);
    spoil_grants(&mut maker, &mut grants, number);
    if maker.random.percent(30) {
        let second = maker.random.one_of(&[15, 23]);
        spoil_grants(&mut maker, &mut grants, second);
    }
    maker.random.shuffle(&mut grants);
    maker.add_founding(&grants);
    let draft = maker.good_draft(5);
    maker.add_block(&draft.bytes());
    maker.stream
}

fn spoil_grants(maker: &mut Maker, grants: &mut [Grant], number: u32) {
    let random = &mut maker.random;
    let one = random.place(grants.len());
    let other = random.place(grants.len());
    match number {
        15 => grants[one].account = grants[other].account,
        23 => {
            let asset = random.place(ASSETS);
            let sum: u64 = grants.iter().map(|grant| grant.balances[asset]).sum();
            // The highest amount that is good, or one more, or far more.
            let more = (TOP_AMOUNT + random.one_of(&[0, 1, 1, 5])).saturating_sub(sum);
            grants[one].balances[asset] = (grants[one].balances[asset] + more).min(TOP_AMOUNT);
            if random.percent(30) {
                grants[other].balances[asset] = TOP_AMOUNT;
            }
        }
        _ => {}
    }
}

/// Operands at the edges of their ranges, in the founding and in blocks.
fn with_edges(seed: u64) -> Vec<u8> {
    let mut maker = Maker::new(seed);
    let count = maker.random.between(1, 8) as usize;
    let grants = maker.grants(count);
    if maker.random.percent(25) {
        let mut commands: Vec<Command> = grants.iter().cloned().map(Command::Grant).collect();
        commands.push(Command::End);
        let place = maker.random.place(count);
        set_edge(&mut maker.random, &mut commands[place]);
        if maker.random.percent(20) {
            let foreign = foreign_command(&mut maker.random);
            let place = maker.random.place(count + 1);
            commands.insert(place, foreign);
        }
        let bytes = write_all(&commands);
        let _ = maker.exchange.found(&bytes);
        maker.stream.extend(bytes);
    } else {
        maker.add_founding(&grants);
    }
    if !maker.exchange.founded() {
        return maker.stream;
    }
    let blocks = maker.random.between(2, 6);
    for _ in 0..blocks {
        let size = maker.random.between(2, 15) as usize;
        let mut commands = maker.good_draft(size).commands();
        if maker.random.percent(60) {
            let edges = maker.random.between(1, 2);
            for _ in 0..edges {
                spoil_operand(&mut maker, &mut commands);
            }
        }
        maker.add_block(&write_all(&commands));
    }
    maker.stream
}

// Damage.

/// A small or faulty stream with bytes changed, removed, put in, or cut off.
pub fn damaged(seed: u64) -> Vec<u8> {
    let mut random = Random::new(seed ^ 0xdada_6ed0);
    let mut stream = if random.percent(80) { small(seed) } else { faulty(seed, None) };
    let times = random.one_of(&[1, 1, 1, 2, 3, 8]);
    for _ in 0..times {
        damage(&mut random, &mut stream);
    }
    stream
}

fn damage(random: &mut Random, stream: &mut Vec<u8>) {
    if stream.is_empty() {
        return;
    }
    let place = random.place(stream.len());
    match random.below(12) {
        0..=3 => stream[place] = random.draw() as u8,
        4 | 5 => stream[place] ^= 1 << random.below(8),
        6 => {
            let end = (place + random.one_of(&[1, 1, 2, 13, 38, 69])).min(stream.len());
            stream.drain(place..end);
        }
        7 => {
            let count = random.one_of(&[1, 1, 2, 6, 38]);
            let new: Vec<u8> = (0..count).map(|_| random.draw() as u8).collect();
            stream.splice(place..place, new);
        }
        8 => stream.truncate(place),
        9 => {
            // A letter becomes another letter.
            let places = letter_places(stream);
            if !places.is_empty() {
                let place = random.one_of(&places);
                stream[place] = random.one_of(b"BPVATOCGE");
            }
        }
        10 => {
            // An operand's byte near a letter.
            let places = letter_places(stream);
            if !places.is_empty() {
                let place = random.one_of(&places) + random.place(14);
                if let Some(byte) = stream.get_mut(place) {
                    *byte = random.one_of(&[0, 1, 7, 8, 64, 127, 128, 255]);
                }
            }
        }
        _ => {
            // A part of the stream comes twice.
            let end = (place + random.place(200)).min(stream.len());
            let part = stream[place..end].to_vec();
            stream.splice(place..place, part);
        }
    }
}

// Twins.

/// A stream, and the same with the transactions of each readable block and
/// the grants of the founding in another order.
pub fn twin(seed: u64) -> (Vec<u8>, Vec<u8>) {
    let mut random = Random::new(seed ^ 0x7713);
    let stream = if random.percent(50) { small(seed) } else { faulty(seed, None) };
    let mut other = Vec::new();
    let mut rest = &stream[..];
    while let Ok(end) = length(rest) {
        let (piece, after) = rest.split_at(end);
        other.extend(shuffled(&mut random, piece));
        rest = after;
    }
    other.extend(rest);
    (stream, other)
}

/// A readable piece in another order; another piece as it is.
fn shuffled(random: &mut Random, piece: &[u8]) -> Vec<u8> {
    if let Ok(mut founding) = read_founding(piece) {
        random.shuffle(&mut founding.grants);
        let mut commands: Vec<Command> = founding.grants.into_iter().map(Command::Grant).collect();
        commands.push(Command::End);
        return write_all(&commands);
    }
    if let Ok(block) = read_block(piece) {
        let mut transactions = block.transactions;
        random.shuffle(&mut transactions);
        let draft = Draft {
            height: block.height,
            parent: block.parent,
            prices: block.prices.map(|price| price as u32),
            volumes: block.volumes,
            transactions,
        };
        return draft.bytes();
    }
    piece.to_vec()
}
