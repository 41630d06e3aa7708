//! Short ways to write foundings and blocks in the tests.
#![allow(dead_code)]

use independent::exchange::{Bounds, Exchange, Key};
use independent::fault::Fault;
use independent::making::Draft;
use independent::reading::{Action, Command, Grant, Transaction, Volume};
use independent::writing::write_all;

pub const TOP: u64 = 68_719_476_735;

pub fn fault(number: u32, first: u64, second: u64) -> Fault {
    Fault::at(number, first, second)
}

pub fn grant(account: u32, few: &[u64]) -> Grant {
    let mut balances = [0; 8];
    balances[..few.len()].copy_from_slice(few);
    Grant { account, balances }
}

pub fn founding(grants: &[Grant]) -> Vec<u8> {
    let mut commands: Vec<Command> = grants.iter().cloned().map(Command::Grant).collect();
    commands.push(Command::End);
    write_all(&commands)
}

pub fn founded(bounds: Bounds, grants: &[Grant]) -> Exchange {
    let mut exchange = Exchange::new(bounds);
    exchange.found(&founding(grants)).unwrap();
    exchange
}

pub fn volume(sold: u8, bought: u8, amount: u64) -> Volume {
    Volume { sold, bought, amount }
}

pub fn create(source: u32, sequence: u32, account: u32) -> Transaction {
    Transaction { source, sequence, action: Action::Create { account } }
}

pub fn pay(source: u32, sequence: u32, receiver: u32, asset: u8, amount: u64) -> Transaction {
    Transaction { source, sequence, action: Action::Pay { receiver, asset, amount, memo: [9; 16] } }
}

pub fn offer(source: u32, sequence: u32, (sold, bought): (u8, u8), limit: u32, amount: u64) -> Transaction {
    Transaction { source, sequence, action: Action::Offer { sold, bought, limit, amount } }
}

pub fn cancel(source: u32, sequence: u32, (sold, bought): (u8, u8), limit: u32, offered: u32) -> Transaction {
    Transaction { source, sequence, action: Action::Cancel { sold, bought, limit, offered } }
}

pub fn key(sold: u8, bought: u8, limit: u32, account: u32, sequence: u32) -> Key {
    Key { sold, bought, limit, account, sequence }
}

/// An empty block that is next, with all prices 1.
pub fn next(exchange: &Exchange) -> Draft {
    Draft {
        height: exchange.height() + 1,
        parent: exchange.digest(),
        prices: [1; 8],
        volumes: Vec::new(),
        transactions: Vec::new(),
    }
}

/// The next block with some transactions.
pub fn next_with(exchange: &Exchange, transactions: &[Transaction]) -> Vec<u8> {
    let mut draft = next(exchange);
    draft.transactions = transactions.to_vec();
    draft.bytes()
}

/// The fault that a check gives.
pub fn refused(exchange: &mut Exchange, bytes: &[u8]) -> Fault {
    exchange.check(bytes).expect_err("the block should be refused")
}

/// Checks and commits.
pub fn take(exchange: &mut Exchange, bytes: &[u8]) {
    let checked = exchange.check(bytes).expect("the block should pass");
    exchange.commit(checked).expect("the block should be committed");
}

// The block by hand of RULES.md, section 5.

pub fn hand_grants() -> Vec<Grant> {
    vec![grant(1, &[1_000]), grant(2, &[0, 1_000]), grant(3, &[67])]
}

pub fn hand_draft(exchange: &Exchange) -> Draft {
    let mut draft = next(exchange);
    draft.prices = [3, 2, 1, 1, 1, 1, 1, 1];
    draft.volumes = vec![volume(0, 1, 100), volume(1, 0, 150)];
    draft.transactions = vec![
        offer(1, 1, (0, 1), 98_304, 40),
        offer(3, 1, (0, 1), 65_536, 67),
        offer(2, 1, (1, 0), 32_768, 200),
    ];
    draft
}
