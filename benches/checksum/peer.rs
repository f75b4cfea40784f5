//! The same checksum in Rust, for comparison: four words of 64 bits side by side over sixteen tables, and one table.
//! Prints the bytes that each takes in a microsecond.
use std::time::Instant;

const ZEROS: [usize; 16] = [0, 1, 2, 3, 4, 5, 6, 7, 24, 25, 26, 27, 28, 29, 30, 31];

/// Entry `b` of table `k` is the register after the byte `b` and `ZEROS[k]` bytes of 0.
const fn tables() -> [[u32; 256]; 16] {
    let mut tables = [[0u32; 256]; 16];
    let mut byte = 0;
    while byte < 256 {
        let mut register = byte as u32;
        let mut bit = 0;
        while bit < 8 {
            register = (register >> 1) ^ (0x82F6_3B78 * (register & 1));
            bit += 1;
        }
        tables[0][byte] = register;
        byte += 1;
    }
    let mut k = 1;
    while k < 16 {
        let mut byte = 0;
        while byte < 256 {
            let mut register = tables[0][byte];
            let mut zeros = 0;
            while zeros < ZEROS[k] {
                register = tables[0][(register & 0xff) as usize] ^ (register >> 8);
                zeros += 1;
            }
            tables[k][byte] = register;
            byte += 1;
        }
        k += 1;
    }
    tables
}

static TABLES: [[u32; 256]; 16] = tables();

/// A word moved on by itself (`from` 7) or by a stride (`from` 15).
#[inline(always)]
fn moved(word: u64, from: usize) -> u32 {
    let mut register = 0;
    for i in 0..8 {
        register ^= TABLES[from - i][((word >> (8 * i)) & 0xff) as usize];
    }
    register
}

#[inline(always)]
fn word(bytes: &[u8], at: usize) -> u64 {
    u64::from_le_bytes(bytes[at..at + 8].try_into().unwrap())
}

fn absorb_bytes(mut register: u32, bytes: &[u8]) -> u32 {
    for byte in bytes {
        register = TABLES[0][((register ^ *byte as u32) & 0xff) as usize] ^ (register >> 8);
    }
    register
}

fn absorb_words(mut register: u32, mut rest: &[u8]) -> u32 {
    while rest.len() >= 8 {
        let (block, after) = rest.split_at(8);
        register = moved(word(block, 0) ^ register as u64, 7);
        rest = after;
    }
    absorb_bytes(register, rest)
}

fn absorb_strides(register: u32, bytes: &[u8]) -> u32 {
    if bytes.len() < 32 {
        return absorb_words(register, bytes);
    }
    let (head, mut rest) = bytes.split_at(32);
    let mut state = [word(head, 0) ^ register as u64, word(head, 8), word(head, 16), word(head, 24)];
    while rest.len() >= 32 {
        let (block, after) = rest.split_at(32);
        for i in 0..4 {
            state[i] = moved(state[i], 15) as u64 ^ word(block, 8 * i);
        }
        rest = after;
    }
    let mut joined = moved(state[0], 7);
    for i in 1..4 {
        joined = moved(joined as u64 ^ state[i], 7);
    }
    absorb_words(joined, rest)
}

#[inline(never)]
fn crc32c(bytes: &[u8]) -> u32 {
    !absorb_strides(!0, bytes)
}

#[inline(never)]
fn crc32c_one_table(bytes: &[u8]) -> u32 {
    !absorb_bytes(!0, bytes)
}

fn main() {
    let text: Vec<u8> = (0..1_048_576u32 + 16).map(|i| (i.wrapping_mul(2_654_435_761) >> 24) as u8).collect();
    assert_eq!(crc32c(b"123456789"), 0xe306_9283);
    assert_eq!(crc32c(&[0; 32]), 0x8a91_36aa);
    let forms: [(&str, fn(&[u8]) -> u32); 2] = [("rust", crc32c), ("rust_one_table", crc32c_one_table)];
    for (name, form) in forms {
        for (len, times) in [(64usize, 65_536usize), (4_096, 1_024), (1_048_576, 4)] {
            let mut least = u128::MAX;
            for _ in 0..200 {
                let from = Instant::now();
                let mut shown = 0;
                for i in 0..times {
                    shown ^= form(&text[i & 15..(i & 15) + len]);
                }
                std::hint::black_box(shown);
                least = least.min(from.elapsed().as_micros());
            }
            println!("{name} {len} {}", 4_194_304 / least.max(1));
        }
    }
}
