//! Reading: from bytes to commands, blocks and foundings (FORMAT.md, sections
//! 1 to 3), with the faults 1 to 7; and *length*, which cuts a stream.

use crate::fault::Fault;

pub const MOST_BYTES: usize = 40_000;
pub const MOST_TRANSACTIONS: usize = 1_024;
pub const ASSETS: usize = 8;
/// The highest amount and the highest balance.
pub const TOP_AMOUNT: u64 = (1 << 36) - 1;
pub const TOP_PRICE: u32 = (1 << 24) - 1;

/// A command as it stands in the bytes. Its operands need not be in range.
#[derive(Clone, Debug, PartialEq, Eq)]
pub enum Command {
    Begin { height: u32, parent: [u8; 32] },
    Price { asset: u8, price: u32 },
    Volume(Volume),
    Transaction(Transaction),
    Grant(Grant),
    End,
}

#[derive(Clone, Copy, Debug, PartialEq, Eq)]
pub struct Volume {
    pub sold: u8,
    pub bought: u8,
    pub amount: u64,
}

#[derive(Clone, Debug, PartialEq, Eq)]
pub struct Grant {
    pub account: u32,
    pub balances: [u64; ASSETS],
}

#[derive(Clone, Debug, PartialEq, Eq)]
pub struct Transaction {
    pub source: u32,
    pub sequence: u32,
    pub action: Action,
}

#[derive(Clone, Debug, PartialEq, Eq)]
pub enum Action {
    Create {
        account: u32,
    },
    Pay {
        receiver: u32,
        asset: u8,
        amount: u64,
        memo: [u8; 16],
    },
    Offer {
        sold: u8,
        bought: u8,
        limit: u32,
        amount: u64,
    },
    /// `offered` is the sequence number under which the offer was placed.
    Cancel {
        sold: u8,
        bought: u8,
        limit: u32,
        offered: u32,
    },
}

impl Transaction {
    /// What names a transaction in a fault.
    pub fn name(&self) -> (u32, u32) {
        (self.source, self.sequence)
    }
}

/// A readable block.
#[derive(Clone, Debug, PartialEq, Eq)]
pub struct Block {
    pub height: u32,
    pub parent: [u8; 32],
    pub prices: [u64; ASSETS],
    /// By rising pair.
    pub volumes: Vec<Volume>,
    pub transactions: Vec<Transaction>,
}

/// A readable founding.
#[derive(Clone, Debug, PartialEq, Eq)]
pub struct Founding {
    pub grants: Vec<Grant>,
}

/// How many bytes the command of a letter has, the letter counted in; none if
/// the byte is no letter of a command.
pub fn width(letter: u8) -> Option<usize> {
    match letter {
        b'B' => Some(37),
        b'P' => Some(6),
        b'V' => Some(11),
        b'A' => Some(13),
        b'T' => Some(38),
        b'O' => Some(23),
        b'C' => Some(19),
        b'G' => Some(69),
        b'E' => Some(1),
        _ => None,
    }
}

/// The bytes of the command at a place, or fault 3 or 2 there.
fn command_bytes(bytes: &[u8], place: usize) -> Result<&[u8], Fault> {
    let Some(&letter) = bytes.get(place) else {
        return Err(Fault::byte(2, place));
    };
    let width = width(letter).ok_or(Fault::byte(3, place))?;
    bytes[place..].get(..width).ok_or(Fault::byte(2, place))
}

/// *length*: the number of bytes up to and with the first E command. It looks
/// at letters and widths only.
pub fn length(bytes: &[u8]) -> Result<usize, Fault> {
    let mut place = 0;
    loop {
        let command = command_bytes(bytes, place)?;
        place += command.len();
        if command[0] == b'E' {
            return Ok(place);
        }
    }
}

/// *read*: the command at any place of any bytes and the place after it; or
/// 3, 2 or 5 at that place.
pub fn read(bytes: &[u8], place: usize) -> Result<(Command, usize), Fault> {
    let own = command_bytes(bytes, place)?;
    let command = decode(own);
    if !in_range(&command) {
        return Err(Fault::byte(5, place));
    }
    Ok((command, place + own.len()))
}

/// Takes operands one after another.
struct Operands<'a> {
    rest: &'a [u8],
}

impl Operands<'_> {
    fn take<const N: usize>(&mut self) -> [u8; N] {
        let (front, rest) = self.rest.split_first_chunk::<N>().expect("the width was tested");
        self.rest = rest;
        *front
    }

    fn byte(&mut self) -> u8 {
        self.take::<1>()[0]
    }

    fn four(&mut self) -> u32 {
        u32::from_be_bytes(self.take())
    }

    fn eight(&mut self) -> u64 {
        u64::from_be_bytes(self.take())
    }
}

/// The command in its own bytes; letter and width are known to be good.
fn decode(own: &[u8]) -> Command {
    let mut operands = Operands { rest: &own[1..] };
    match own[0] {
        b'B' => Command::Begin { height: operands.four(), parent: operands.take() },
        b'P' => Command::Price { asset: operands.byte(), price: operands.four() },
        b'V' => Command::Volume(Volume {
            sold: operands.byte(),
            bought: operands.byte(),
            amount: operands.eight(),
        }),
        b'G' => Command::Grant(decode_grant(&mut operands)),
        b'E' => Command::End,
        letter => Command::Transaction(decode_transaction(letter, &mut operands)),
    }
}

fn decode_grant(operands: &mut Operands) -> Grant {
    let account = operands.four();
    let mut balances = [0; ASSETS];
    for balance in &mut balances {
        *balance = operands.eight();
    }
    Grant { account, balances }
}

fn decode_transaction(letter: u8, operands: &mut Operands) -> Transaction {
    let source = operands.four();
    let sequence = operands.four();
    let action = match letter {
        b'A' => Action::Create { account: operands.four() },
        b'T' => Action::Pay {
            receiver: operands.four(),
            asset: operands.byte(),
            amount: operands.eight(),
            memo: operands.take(),
        },
        b'O' => Action::Offer {
            sold: operands.byte(),
            bought: operands.byte(),
            limit: operands.four(),
            amount: operands.eight(),
        },
        _ => Action::Cancel {
            sold: operands.byte(),
            bought: operands.byte(),
            limit: operands.four(),
            offered: operands.four(),
        },
    };
    Transaction { source, sequence, action }
}

fn good_asset(asset: u8) -> bool {
    usize::from(asset) < ASSETS
}

fn good_pair(sold: u8, bought: u8) -> bool {
    good_asset(sold) && good_asset(bought) && sold != bought
}

fn good_amount(amount: u64) -> bool {
    (1..=TOP_AMOUNT).contains(&amount)
}

/// Whether all operands of a command are in their ranges.
fn in_range(command: &Command) -> bool {
    match command {
        Command::Begin { .. } | Command::End => true,
        Command::Price { asset, price } => good_asset(*asset) && (1..=TOP_PRICE).contains(price),
        Command::Volume(volume) => good_pair(volume.sold, volume.bought) && good_amount(volume.amount),
        Command::Grant(grant) => grant.account >= 1 && grant.balances.iter().all(|b| *b <= TOP_AMOUNT),
        Command::Transaction(transaction) => transaction.source >= 1 && action_in_range(&transaction.action),
    }
}

fn action_in_range(action: &Action) -> bool {
    match *action {
        Action::Create { account } => account >= 1,
        Action::Pay { receiver, asset, amount, .. } => {
            receiver >= 1 && good_asset(asset) && good_amount(amount)
        }
        Action::Offer { sold, bought, limit, amount } => {
            good_pair(sold, bought) && limit >= 1 && good_amount(amount)
        }
        Action::Cancel { sold, bought, limit, .. } => good_pair(sold, bought) && limit >= 1,
    }
}

/// How far the reading of a block has come; it decides what may follow.
#[derive(Clone, Copy)]
enum Turn {
    Start,
    /// The price of this asset is due.
    PriceDue(u8),
    /// All prices were read; volumes above this pair may follow, if there was one.
    Volumes(Option<(u8, u8)>),
    Transactions,
    Ended,
}

/// The turn after a command of a block; none if the command is out of turn.
fn next_turn(turn: Turn, command: &Command) -> Option<Turn> {
    match (turn, command) {
        (Turn::Start, Command::Begin { .. }) => Some(Turn::PriceDue(0)),
        (Turn::PriceDue(due), Command::Price { asset, .. }) if *asset == due => Some(match due {
            7 => Turn::Volumes(None),
            _ => Turn::PriceDue(due + 1),
        }),
        (Turn::Volumes(last), Command::Volume(volume)) => {
            let pair = (volume.sold, volume.bought);
            let rises = last.is_none_or(|last| last < pair);
            rises.then_some(Turn::Volumes(Some(pair)))
        }
        (Turn::Volumes(_) | Turn::Transactions, Command::Transaction(_)) => Some(Turn::Transactions),
        (Turn::Volumes(_) | Turn::Transactions, Command::End) => Some(Turn::Ended),
        _ => None,
    }
}

/// Reads a block, or gives its fault of 1 to 7.
pub fn read_block(bytes: &[u8]) -> Result<Block, Fault> {
    not_too_long(bytes)?;
    let mut block = Block {
        height: 0,
        parent: [0; 32],
        prices: [0; ASSETS],
        volumes: Vec::new(),
        transactions: Vec::new(),
    };
    let mut turn = Turn::Start;
    let mut place = 0;
    while !matches!(turn, Turn::Ended) {
        let own = command_bytes(bytes, place)?;
        let command = decode(own);
        turn = next_turn(turn, &command).ok_or(Fault::byte(4, place))?;
        if !in_range(&command) {
            return Err(Fault::byte(5, place));
        }
        if !add_to_block(&mut block, command) {
            return Err(Fault::byte(6, place));
        }
        place += own.len();
    }
    nothing_after(bytes, place)?;
    Ok(block)
}

/// Puts a command into the block; false if it is transaction 1,025.
fn add_to_block(block: &mut Block, command: Command) -> bool {
    match command {
        Command::Begin { height, parent } => {
            block.height = height;
            block.parent = parent;
        }
        Command::Price { asset, price } => block.prices[usize::from(asset)] = u64::from(price),
        Command::Volume(volume) => block.volumes.push(volume),
        Command::Transaction(transaction) => {
            if block.transactions.len() == MOST_TRANSACTIONS {
                return false;
            }
            block.transactions.push(transaction);
        }
        Command::Grant(_) | Command::End => {}
    }
    true
}

/// Reads a founding, or gives its fault of 1 to 5 or 7.
pub fn read_founding(bytes: &[u8]) -> Result<Founding, Fault> {
    not_too_long(bytes)?;
    let mut grants = Vec::new();
    let mut place = 0;
    loop {
        let own = command_bytes(bytes, place)?;
        let command = decode(own);
        let after = place + own.len();
        match command {
            Command::Grant(_) if !in_range(&command) => return Err(Fault::byte(5, place)),
            Command::Grant(grant) => grants.push(grant),
            Command::End => {
                nothing_after(bytes, after)?;
                return Ok(Founding { grants });
            }
            _ => return Err(Fault::byte(4, place)),
        }
        place = after;
    }
}

fn not_too_long(bytes: &[u8]) -> Result<(), Fault> {
    if bytes.len() > MOST_BYTES {
        return Err(Fault::plain(1));
    }
    Ok(())
}

fn nothing_after(bytes: &[u8], end: usize) -> Result<(), Fault> {
    if end < bytes.len() {
        return Err(Fault::byte(7, end));
    }
    Ok(())
}
