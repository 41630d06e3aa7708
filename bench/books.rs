// Times the offer books beside Rust's BTreeMap over the same keys and amounts, in one run. Each line gives nanoseconds an
// operation: placing, looking an amount up, one step of an in-order walk, one sum of a pair up to a limit.
use std::collections::BTreeMap;
use std::hint::black_box;
use std::time::Instant;

unsafe extern "C" {
    fn ordered_small(repeat: u32, lookups: u32, walks: u32, reaches: u32, scattered: bool) -> u64;
    fn ordered_large(repeat: u32, lookups: u32, walks: u32, reaches: u32, scattered: bool) -> u64;
    fn trie_of(nodes: usize, repeat: u32, lookups: u32, walks: u32, reaches: u32, scattered: bool) -> u64;
}

#[derive(Clone, Copy, PartialEq, Eq, PartialOrd, Ord)]
struct Key {
    sold: u8,
    bought: u8,
    limit: u32,
    account: u32,
    sequence: u32,
}

fn scatter(i: u32) -> u32 {
    let mut x = i;
    x = (x ^ (x >> 16)).wrapping_mul(0x85eb_ca6b);
    x = (x ^ (x >> 13)).wrapping_mul(0xc2b2_ae35);
    x ^ (x >> 16)
}

fn nth(i: u32, scattered: bool) -> Key {
    if !scattered {
        return Key { sold: 0, bought: 1, limit: i / 16 + 1, account: i % 16 + 1, sequence: 1 };
    }
    let x = scatter(i.wrapping_add(1));
    let sold = (x & 7) as u8;
    let other = ((x >> 3) % 7) as u8;
    let bought = if other < sold { other } else { other + 1 };
    Key { sold, bought, limit: (x >> 6) | 1, account: i.wrapping_add(1).max(1), sequence: 1 }
}

fn map(count: u32, repeat: u32, lookups: u32, walks: u32, reaches: u32, scattered: bool) -> u64 {
    let mut sum = 0u64;
    for _ in 0..repeat {
        let mut map = BTreeMap::new();
        for i in 0..count {
            if map.insert(nth(i, scattered), 1000u64).is_none() {
                sum = sum.wrapping_add(1);
            }
        }
        let mut state = 1u32;
        for _ in 0..lookups {
            state = state.wrapping_mul(1_664_525).wrapping_add(1_013_904_223);
            let key = nth((state >> 8) % count, scattered);
            sum = sum.wrapping_add(map.get(&key).copied().unwrap_or(0));
        }
        for _ in 0..walks {
            sum = sum.wrapping_add(map.keys().fold(0u64, |s, k| s.wrapping_add(k.limit as u64)));
        }
        let mut state = 1u32;
        for _ in 0..reaches {
            state = state.wrapping_mul(1_664_525).wrapping_add(1_013_904_223);
            let key = nth((state >> 8) % count, scattered);
            let low = Key { limit: 0, account: 0, sequence: 0, ..key };
            let high = Key { account: u32::MAX, sequence: u32::MAX, ..key };
            sum = sum.wrapping_add(map.range(low..=high).map(|(_, a)| *a).sum::<u64>());
        }
        black_box(&map);
    }
    sum
}

// the least of several runs, in nanoseconds
fn time(run: &dyn Fn() -> u64) -> f64 {
    (0..3)
        .map(|_| {
            let start = Instant::now();
            black_box(run());
            start.elapsed().as_nanos() as f64
        })
        .fold(f64::INFINITY, f64::min)
}

// `reaches` is how many sums are asked for: fewer where each looks at many offers
fn line(name: &str, count: u32, scattered: bool, reaches: u32, run: &dyn Fn(u32, u32, u32, u32) -> u64) {
    let small = count <= 256;
    let (repeat, lookups, walks) = if small { (200, 1_000_000, 2_000) } else { (1, 2_000_000, 20) };
    let placed = time(&|| run(repeat, 0, 0, 0)) / repeat as f64;
    let looked = time(&|| run(1, lookups, 0, 0)) - placed;
    let walked = time(&|| run(1, 0, walks, 0)) - placed;
    let reached = time(&|| run(1, 0, 0, reaches)) - placed;
    println!(
        "{name:9} {count:6} {:9}   place {:8.1}   look up {:7.1}   walk {:7.1}   up to {:10.1}   check {}",
        if scattered { "scattered" } else { "one pair" },
        placed / count as f64,
        looked / lookups as f64,
        walked / (walks as f64 * count as f64),
        reached / reaches as f64,
        run(1, 1000, 1, 10),
    );
}

fn all() {
    for count in [256u32, 65_536] {
        for scattered in [false, true] {
            if count == 256 {
                line("ordered", count, scattered, 200_000, &|r, l, w, u| unsafe { ordered_small(r, l, w, u, scattered) });
            } else {
                line("ordered", count, scattered, 20_000, &|r, l, w, u| unsafe { ordered_large(r, l, w, u, scattered) });
            }
            let nodes = 2 * count as usize - 1;
            line("trie", count, scattered, 2_000_000, &|r, l, w, u| unsafe { trie_of(nodes, r, l, w, u, scattered) });
            line("BTreeMap", count, scattered, 20_000, &|r, l, w, u| map(count, r, l, w, u, scattered));
        }
    }
}

fn main() {
    // the large books lie on the stack
    std::thread::Builder::new().stack_size(64 << 20).spawn(all).unwrap().join().unwrap();
}
