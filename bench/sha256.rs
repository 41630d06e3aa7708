// SHA-256 in ordinary Rust, in the same structure as crates/sha256 (eight rounds a turn, the message schedule written as
// they go, whole blocks straight from the input), to compare speed with: prints the digest of standard input.
// Built by bench/sha256.sh with `rustc -O`.
use std::io::{self, Read};

const K: [u32; 64] = [
    0x428a2f98, 0x71374491, 0xb5c0fbcf, 0xe9b5dba5, 0x3956c25b, 0x59f111f1, 0x923f82a4, 0xab1c5ed5,
    0xd807aa98, 0x12835b01, 0x243185be, 0x550c7dc3, 0x72be5d74, 0x80deb1fe, 0x9bdc06a7, 0xc19bf174,
    0xe49b69c1, 0xefbe4786, 0x0fc19dc6, 0x240ca1cc, 0x2de92c6f, 0x4a7484aa, 0x5cb0a9dc, 0x76f988da,
    0x983e5152, 0xa831c66d, 0xb00327c8, 0xbf597fc7, 0xc6e00bf3, 0xd5a79147, 0x06ca6351, 0x14292967,
    0x27b70a85, 0x2e1b2138, 0x4d2c6dfc, 0x53380d13, 0x650a7354, 0x766a0abb, 0x81c2c92e, 0x92722c85,
    0xa2bfe8a1, 0xa81a664b, 0xc24b8b70, 0xc76c51a3, 0xd192e819, 0xd6990624, 0xf40e3585, 0x106aa070,
    0x19a4c116, 0x1e376c08, 0x2748774c, 0x34b0bcb5, 0x391c0cb3, 0x4ed8aa4a, 0x5b9cca4f, 0x682e6ff3,
    0x748f82ee, 0x78a5636f, 0x84c87814, 0x8cc70208, 0x90befffa, 0xa4506ceb, 0xbef9a3f7, 0xc67178f2,
];

#[derive(Clone, Copy)]
struct State {
    a: u32,
    b: u32,
    c: u32,
    d: u32,
    e: u32,
    f: u32,
    g: u32,
    h: u32,
}

const INITIAL: State = State {
    a: 0x6a09e667,
    b: 0xbb67ae85,
    c: 0x3c6ef372,
    d: 0xa54ff53a,
    e: 0x510e527f,
    f: 0x9b05688c,
    g: 0x1f83d9ab,
    h: 0x5be0cd19,
};

struct Hasher {
    state: State,
    buffer: [u8; 64],
    count: u64,
}

fn step(s: State, w: &[u32; 64], t: usize) -> State {
    let s1 = s.e.rotate_right(6) ^ s.e.rotate_right(11) ^ s.e.rotate_right(25);
    let ch = s.g ^ (s.e & (s.f ^ s.g));
    let t1 = s.h.wrapping_add(s1).wrapping_add(ch).wrapping_add(K[t]).wrapping_add(w[t]);
    let s0 = s.a.rotate_right(2) ^ s.a.rotate_right(13) ^ s.a.rotate_right(22);
    let maj = (s.a & s.b) ^ (s.a & s.c) ^ (s.b & s.c);
    let t2 = s0.wrapping_add(maj);
    State { a: t1.wrapping_add(t2), b: s.a, c: s.b, d: s.c, e: s.d.wrapping_add(t1), f: s.e, g: s.f, h: s.g }
}

fn eight(s: State, w: &[u32; 64], t: usize) -> State {
    let s1 = step(s, w, t);
    let s2 = step(s1, w, t + 1);
    let s3 = step(s2, w, t + 2);
    let s4 = step(s3, w, t + 3);
    let s5 = step(s4, w, t + 4);
    let s6 = step(s5, w, t + 5);
    let s7 = step(s6, w, t + 6);
    step(s7, w, t + 7)
}

fn extend(w: &mut [u32; 64], n: usize) {
    for t in n + 16..n + 24 {
        let x = w[t - 2];
        let y = w[t - 15];
        let s1 = x.rotate_right(17) ^ x.rotate_right(19) ^ (x >> 10);
        let s0 = y.rotate_right(7) ^ y.rotate_right(18) ^ (y >> 3);
        w[t] = s1.wrapping_add(w[t - 7]).wrapping_add(s0).wrapping_add(w[t - 16]);
    }
}

fn rounds(start: State, block: &[u8]) -> State {
    let mut w = [0; 64];
    for (word, bytes) in w.iter_mut().zip(block.chunks_exact(4)) {
        *word = u32::from_be_bytes([bytes[0], bytes[1], bytes[2], bytes[3]]);
    }
    let mut s = start;
    for i in 0..6 {
        extend(&mut w, 8 * i);
        s = eight(s, &w, 8 * i);
    }
    let last = eight(s, &w, 48);
    eight(last, &w, 56)
}

impl State {
    fn compress(self, block: &[u8]) -> State {
        let t = rounds(self, block);
        State {
            a: self.a.wrapping_add(t.a),
            b: self.b.wrapping_add(t.b),
            c: self.c.wrapping_add(t.c),
            d: self.d.wrapping_add(t.d),
            e: self.e.wrapping_add(t.e),
            f: self.f.wrapping_add(t.f),
            g: self.g.wrapping_add(t.g),
            h: self.h.wrapping_add(t.h),
        }
    }
}

impl Hasher {
    fn new() -> Hasher {
        Hasher { state: INITIAL, buffer: [0; 64], count: 0 }
    }

    fn keep(&mut self, part: &[u8]) {
        let used = (self.count % 64) as usize;
        let end = used + part.len();
        self.buffer[used..end].copy_from_slice(part);
        self.count = self.count.wrapping_add(part.len() as u64);
        if end == 64 {
            self.state = self.state.compress(&self.buffer);
        }
    }

    fn update(&mut self, bytes: &[u8]) {
        let used = (self.count % 64) as usize;
        let head = if used == 0 { 0 } else { bytes.len().min(64 - used) };
        let (head, rest) = bytes.split_at(head);
        self.keep(head);
        let mut blocks = rest.chunks_exact(64);
        for block in &mut blocks {
            self.state = self.state.compress(block);
            self.count = self.count.wrapping_add(64);
        }
        self.keep(blocks.remainder());
    }

    fn finish(mut self) -> [u8; 32] {
        let bits = self.count.wrapping_mul(8);
        let zeros = (119 - (self.count % 64) as usize) % 64;
        let mut padding = [0; 64];
        padding[0] = 0x80;
        self.update(&padding[..zeros + 1]);
        self.update(&bits.to_be_bytes());
        let State { a, b, c, d, e, f, g, h } = self.state;
        let mut digest = [0; 32];
        for (bytes, word) in digest.chunks_exact_mut(4).zip([a, b, c, d, e, f, g, h]) {
            bytes.copy_from_slice(&word.to_be_bytes());
        }
        digest
    }
}

fn main() -> io::Result<()> {
    let mut input = io::stdin();
    let mut hasher = Hasher::new();
    let mut buffer = vec![0; 65536];
    loop {
        let n = input.read(&mut buffer)?;
        if n == 0 {
            break;
        }
        hasher.update(&buffer[..n]);
    }
    for byte in hasher.finish() {
        print!("{byte:02x}");
    }
    println!();
    Ok(())
}
