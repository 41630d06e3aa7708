// The reader in ordinary Rust, in the same structure as crates/commands and crates/blocks (commands as an enum, stages, records in
// fixed arrays, the same faults), to compare speed with: prints what `inspect --totals` prints of standard input.
// Built by bench/reader.sh with `rustc -O`.
use std::io::{self, Read, Write};

#[derive(Clone, Copy)]
enum Command<'a> {
    Begin { height: u32, parent: &'a [u8; 32] },
    Price { asset: u8, price: u32 },
    Volume { sold: u8, bought: u8, amount: u64 },
    Create { source: u32, sequence: u32, account: u32 },
    Pay { source: u32, sequence: u32, receiver: u32, asset: u8, amount: u64, #[allow(dead_code)] memo: &'a [u8; 16] },
    Place { source: u32, sequence: u32, sold: u8, bought: u8, limit: u32, amount: u64 },
    Cancel { source: u32, sequence: u32, sold: u8, bought: u8, limit: u32, offer: u32 },
    Found { account: u32, balances: &'a [u8; 64] },
    End,
}

#[derive(Clone, Copy)]
struct Fault {
    number: u8,
    first: u64,
}

#[derive(Clone, Copy)]
struct Volume {
    sold: u8,
    #[allow(dead_code)]
    bought: u8,
    amount: u64,
}

#[derive(Clone, Copy)]
#[allow(dead_code)]
enum Action {
    Create { account: u32 },
    Pay { receiver: u32, asset: u8, amount: u64 },
    Place { sold: u8, bought: u8, limit: u32, amount: u64 },
    Cancel { sold: u8, bought: u8, limit: u32, offer: u32 },
}

#[derive(Clone, Copy)]
#[allow(dead_code)]
struct Transaction {
    source: u32,
    sequence: u32,
    action: Action,
}

#[derive(Clone, Copy)]
#[allow(dead_code)]
struct Grant {
    account: u32,
    balances: [u64; 8],
}

#[allow(dead_code)]
struct Block {
    height: u32,
    parent: [u8; 32],
    prices: [u32; 8],
    volumes: [Volume; 56],
    pairs: usize,
    transactions: [Transaction; 1024],
    count: usize,
}

struct Founding {
    grants: [Grant; 579],
    count: usize,
}

fn fault_at(number: u8, at: usize) -> Fault {
    Fault { number, first: at as u64 }
}

fn width_of(letter: u8) -> usize {
    match letter {
        b'B' => 37,
        b'P' => 6,
        b'V' => 11,
        b'A' => 13,
        b'T' => 38,
        b'O' => 23,
        b'C' => 19,
        b'G' => 69,
        b'E' => 1,
        _ => 0,
    }
}

fn word(bytes: &[u8], at: usize) -> u32 {
    u32::from_be_bytes(bytes[at..at + 4].try_into().unwrap())
}

fn long(bytes: &[u8], at: usize) -> u64 {
    u64::from_be_bytes(bytes[at..at + 8].try_into().unwrap())
}

fn part<const N: usize>(bytes: &[u8], at: usize) -> &[u8; N] {
    bytes[at..at + N].try_into().unwrap()
}

fn skip(bytes: &[u8], at: usize) -> Result<usize, Fault> {
    let Some(&letter) = bytes.get(at) else {
        return Err(fault_at(2, at));
    };
    let width = width_of(letter);
    if width == 0 {
        return Err(fault_at(3, at));
    }
    if bytes.len() - at < width {
        return Err(fault_at(2, at));
    }
    Ok(at + width)
}

fn parse(bytes: &[u8], at: usize) -> Result<(Command<'_>, usize), Fault> {
    let next = skip(bytes, at)?;
    let b = &bytes[at..next];
    let command = match b[0] {
        b'B' => Command::Begin { height: word(b, 1), parent: part(b, 5) },
        b'P' => Command::Price { asset: b[1], price: word(b, 2) },
        b'V' => Command::Volume { sold: b[1], bought: b[2], amount: long(b, 3) },
        b'A' => Command::Create { source: word(b, 1), sequence: word(b, 5), account: word(b, 9) },
        b'T' => Command::Pay { source: word(b, 1), sequence: word(b, 5), receiver: word(b, 9), asset: b[13], amount: long(b, 14), memo: part(b, 22) },
        b'O' => Command::Place { source: word(b, 1), sequence: word(b, 5), sold: b[9], bought: b[10], limit: word(b, 11), amount: long(b, 15) },
        b'C' => Command::Cancel { source: word(b, 1), sequence: word(b, 5), sold: b[9], bought: b[10], limit: word(b, 11), offer: word(b, 15) },
        b'G' => Command::Found { account: word(b, 1), balances: part(b, 5) },
        _ => Command::End,
    };
    Ok((command, next))
}

fn is_pair(sold: u8, bought: u8) -> bool {
    sold < 8 && bought < 8 && sold != bought
}

fn is_amount(amount: u64) -> bool {
    amount > 0 && amount <= 68_719_476_735
}

fn eight_balances(bytes: &[u8; 64]) -> [u64; 8] {
    std::array::from_fn(|i| long(bytes, 8 * i))
}

fn in_range(command: Command) -> bool {
    match command {
        Command::Begin { .. } | Command::End => true,
        Command::Price { asset, price } => asset < 8 && price > 0 && price <= 16_777_215,
        Command::Volume { sold, bought, amount } => is_pair(sold, bought) && is_amount(amount),
        Command::Create { source, account, .. } => source > 0 && account > 0,
        Command::Pay { source, receiver, asset, amount, .. } => source > 0 && receiver > 0 && asset < 8 && is_amount(amount),
        Command::Place { source, sold, bought, limit, amount, .. } => source > 0 && is_pair(sold, bought) && limit > 0 && is_amount(amount),
        Command::Cancel { source, sold, bought, limit, .. } => source > 0 && is_pair(sold, bought) && limit > 0,
        Command::Found { account, balances } => account > 0 && eight_balances(balances).iter().all(|b| *b <= 68_719_476_735),
    }
}

#[derive(Clone, Copy)]
enum Stage {
    Start,
    Price(u8),
    FirstVolume,
    VolumeAbove(u8, u8),
    Transactions,
    Grants,
}

impl Stage {
    fn admits(self, command: Command) -> bool {
        match (command, self) {
            (Command::Begin { .. }, Stage::Start) => true,
            (Command::Price { asset, .. }, Stage::Price(x)) => asset == x,
            (Command::Volume { .. }, Stage::FirstVolume) => true,
            (Command::Volume { sold, bought, .. }, Stage::VolumeAbove(s, b)) => (s, b) < (sold, bought),
            (
                Command::Create { .. } | Command::Pay { .. } | Command::Place { .. } | Command::Cancel { .. },
                Stage::FirstVolume | Stage::VolumeAbove(..) | Stage::Transactions,
            ) => true,
            (Command::Found { .. }, Stage::Grants) => true,
            (Command::End, Stage::FirstVolume | Stage::VolumeAbove(..) | Stage::Transactions | Stage::Grants) => true,
            _ => false,
        }
    }

    fn after(command: Command) -> Stage {
        match command {
            Command::Begin { .. } => Stage::Price(0),
            Command::Price { asset, .. } if asset < 7 => Stage::Price(asset + 1),
            Command::Price { .. } => Stage::FirstVolume,
            Command::Volume { sold, bought, .. } => Stage::VolumeAbove(sold, bought),
            Command::Found { .. } => Stage::Grants,
            _ => Stage::Transactions,
        }
    }
}

fn step(bytes: &[u8], at: usize, stage: Stage) -> Result<(Command<'_>, usize), Fault> {
    let (command, next) = parse(bytes, at)?;
    if !stage.admits(command) {
        return Err(fault_at(4, at));
    }
    if !in_range(command) {
        return Err(fault_at(5, at));
    }
    Ok((command, next))
}

impl Block {
    fn new() -> Block {
        Block {
            height: 0,
            parent: [0; 32],
            prices: [0; 8],
            volumes: [Volume { sold: 0, bought: 0, amount: 0 }; 56],
            pairs: 0,
            transactions: [Transaction { source: 0, sequence: 0, action: Action::Create { account: 0 } }; 1024],
            count: 0,
        }
    }

    fn push(&mut self, source: u32, sequence: u32, action: Action) {
        self.transactions[self.count] = Transaction { source, sequence, action };
        self.count += 1;
    }

    fn overflows(&self, command: Command) -> bool {
        self.count == 1024
            && matches!(command, Command::Create { .. } | Command::Pay { .. } | Command::Place { .. } | Command::Cancel { .. })
    }

    fn add(&mut self, command: Command) {
        match command {
            Command::Begin { height, parent } => {
                self.height = height;
                self.parent = *parent;
            }
            Command::Price { asset, price } => self.prices[asset as usize] = price,
            Command::Volume { sold, bought, amount } => {
                self.volumes[self.pairs] = Volume { sold, bought, amount };
                self.pairs += 1;
            }
            Command::Create { source, sequence, account } => self.push(source, sequence, Action::Create { account }),
            Command::Pay { source, sequence, receiver, asset, amount, .. } => self.push(source, sequence, Action::Pay { receiver, asset, amount }),
            Command::Place { source, sequence, sold, bought, limit, amount } => {
                self.push(source, sequence, Action::Place { sold, bought, limit, amount })
            }
            Command::Cancel { source, sequence, sold, bought, limit, offer } => {
                self.push(source, sequence, Action::Cancel { sold, bought, limit, offer })
            }
            Command::Found { .. } | Command::End => {}
        }
    }
}

fn read_block(bytes: &[u8]) -> Result<Block, Fault> {
    if bytes.len() > 40_000 {
        return Err(fault_at(1, 0));
    }
    let mut block = Block::new();
    let mut stage = Stage::Start;
    let mut at = 0;
    while at < bytes.len() {
        let (command, next) = step(bytes, at, stage)?;
        if let Command::End = command {
            if next < bytes.len() {
                return Err(fault_at(7, next));
            }
            return Ok(block);
        }
        if block.overflows(command) {
            return Err(fault_at(6, at));
        }
        block.add(command);
        stage = Stage::after(command);
        at = next;
    }
    Err(fault_at(2, at))
}

fn read_founding(bytes: &[u8]) -> Result<Founding, Fault> {
    if bytes.len() > 40_000 {
        return Err(fault_at(1, 0));
    }
    let mut founding = Founding { grants: [Grant { account: 0, balances: [0; 8] }; 579], count: 0 };
    let mut at = 0;
    while at < bytes.len() {
        let (command, next) = step(bytes, at, Stage::Grants)?;
        match command {
            Command::Found { account, balances } => {
                founding.grants[founding.count] = Grant { account, balances: eight_balances(balances) };
                founding.count += 1;
            }
            _ if next < bytes.len() => return Err(fault_at(7, next)),
            _ => return Ok(founding),
        }
        at = next;
    }
    Err(fault_at(2, at))
}

fn length(bytes: &[u8]) -> Result<usize, Fault> {
    let mut at = 0;
    while at < bytes.len() {
        let next = skip(bytes, at)?;
        if bytes[at] == b'E' {
            return Ok(next);
        }
        at = next;
    }
    Err(fault_at(2, at))
}

#[derive(Clone, Copy, Default)]
struct Moved {
    founded: u64,
    sold: u64,
    offered: u64,
    paid: u64,
}

#[derive(Default)]
struct Totals {
    grants: usize,
    volumes: usize,
    creates: usize,
    pays: usize,
    offers: usize,
    cancels: usize,
    moved: [Moved; 8],
}

impl Totals {
    fn of_founding(founding: &Founding) -> Totals {
        let mut totals = Totals { grants: founding.count, ..Totals::default() };
        for grant in &founding.grants[..founding.count] {
            for asset in 0..8 {
                totals.moved[asset].founded += grant.balances[asset];
            }
        }
        totals
    }

    fn of_block(block: &Block) -> Totals {
        let mut totals = Totals { volumes: block.pairs, ..Totals::default() };
        for volume in &block.volumes[..block.pairs] {
            totals.moved[volume.sold as usize].sold += volume.amount;
        }
        for transaction in &block.transactions[..block.count] {
            match transaction.action {
                Action::Create { .. } => totals.creates += 1,
                Action::Cancel { .. } => totals.cancels += 1,
                Action::Pay { asset, amount, .. } => {
                    totals.pays += 1;
                    totals.moved[asset as usize].paid += amount;
                }
                Action::Place { sold, amount, .. } => {
                    totals.offers += 1;
                    totals.moved[sold as usize].offered += amount;
                }
            }
        }
        totals
    }

    fn print(&self, out: &mut impl Write) -> io::Result<()> {
        let Totals { grants, volumes, creates, pays, offers, cancels, .. } = self;
        write!(out, "       in all {grants} G, {volumes} V, {creates} A, {pays} T, {offers} O, {cancels} C")?;
        for (asset, m) in self.moved.iter().enumerate() {
            for (amount, how) in [(m.founded, "founded"), (m.sold, "sold by volumes"), (m.offered, "newly offered"), (m.paid, "paid")] {
                if amount > 0 {
                    write!(out, "; {amount} of asset {asset} {how}")?;
                }
            }
        }
        writeln!(out)
    }
}

fn main() -> io::Result<()> {
    let mut input = Vec::new();
    io::stdin().read_to_end(&mut input)?;
    let mut out = io::stdout().lock();
    let mut start = 0;
    while start < input.len() {
        let rest = &input[start..];
        let what = if start == 0 { "founding" } else { "block" };
        let n = match length(rest) {
            Ok(n) => n,
            Err(fault) => {
                writeln!(out, "byte {start} of the input on: no end command")?;
                return writeln!(out, "fault {} at ({}, 0)", fault.number, fault.first);
            }
        };
        writeln!(out, "{what} at byte {start} of the input, {n} bytes")?;
        let totals = if start == 0 {
            read_founding(&rest[..n]).map(|f| Totals::of_founding(&f))
        } else {
            read_block(&rest[..n]).map(|b| Totals::of_block(&b))
        };
        match totals {
            Ok(totals) => totals.print(&mut out)?,
            Err(fault) => writeln!(out, "fault {} at ({}, 0)", fault.number, fault.first)?,
        }
        start += n;
    }
    Ok(())
}
