//! Writing: from commands to bytes (FORMAT.md, section 1). Nothing is tested
//! here, so that faulty bytes can be written too.

use crate::reading::{Action, Command, Grant, Transaction, Volume};

/// The bytes of commands, one after another.
pub fn write_all(commands: &[Command]) -> Vec<u8> {
    let mut bytes = Vec::new();
    for command in commands {
        write(command, &mut bytes);
    }
    bytes
}

/// Appends the bytes of one command.
pub fn write(command: &Command, bytes: &mut Vec<u8>) {
    match command {
        Command::Begin { height, parent } => {
            bytes.push(b'B');
            bytes.extend(height.to_be_bytes());
            bytes.extend(parent);
        }
        Command::Price { asset, price } => {
            bytes.extend([b'P', *asset]);
            bytes.extend(price.to_be_bytes());
        }
        Command::Volume(Volume { sold, bought, amount }) => {
            bytes.extend([b'V', *sold, *bought]);
            bytes.extend(amount.to_be_bytes());
        }
        Command::Transaction(transaction) => write_transaction(transaction, bytes),
        Command::Grant(grant) => write_grant(grant, bytes),
        Command::End => bytes.push(b'E'),
    }
}

fn write_grant(grant: &Grant, bytes: &mut Vec<u8>) {
    bytes.push(b'G');
    bytes.extend(grant.account.to_be_bytes());
    for balance in grant.balances {
        bytes.extend(balance.to_be_bytes());
    }
}

fn write_transaction(transaction: &Transaction, bytes: &mut Vec<u8>) {
    bytes.push(letter_of(&transaction.action));
    bytes.extend(transaction.source.to_be_bytes());
    bytes.extend(transaction.sequence.to_be_bytes());
    match &transaction.action {
        Action::Create { account } => bytes.extend(account.to_be_bytes()),
        Action::Pay { receiver, asset, amount, memo } => {
            bytes.extend(receiver.to_be_bytes());
            bytes.push(*asset);
            bytes.extend(amount.to_be_bytes());
            bytes.extend(memo);
        }
        Action::Offer { sold, bought, limit, amount } => {
            bytes.extend([*sold, *bought]);
            bytes.extend(limit.to_be_bytes());
            bytes.extend(amount.to_be_bytes());
        }
        Action::Cancel { sold, bought, limit, offered } => {
            bytes.extend([*sold, *bought]);
            bytes.extend(limit.to_be_bytes());
            bytes.extend(offered.to_be_bytes());
        }
    }
}

fn letter_of(action: &Action) -> u8 {
    match action {
        Action::Create { .. } => b'A',
        Action::Pay { .. } => b'T',
        Action::Offer { .. } => b'O',
        Action::Cancel { .. } => b'C',
    }
}
