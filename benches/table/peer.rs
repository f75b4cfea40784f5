//! The same work as `table.rattle` in plain Rust: `rustc --edition 2021 -O peer.rs`. No part of the product.

#[path = "../program/table.rs"]
mod table;

use std::time::Instant;
use table::{Builder, Table};

const ENTRIES: u32 = 1_000_000;
const READS: u32 = 500_000;

fn put_key(out: &mut [u8; 24], number: u64, seq: u64) {
    let mut rest = number.wrapping_mul(4001);
    for place in out[..16].iter_mut().rev() {
        *place = b"0123456789abcdef"[(rest & 15) as usize];
        rest >>= 4;
    }
    out[16..].copy_from_slice(&(seq << 8 | 1).to_le_bytes());
}

fn main() {
    let text: Vec<u8> = (0..65_536u32).map(|i| (i.wrapping_mul(2_654_435_761) >> 24) as u8).collect();
    for _ in 0..5 {
        let from = Instant::now();
        let mut builder = Builder::new();
        let mut key = [0u8; 24];
        for i in 0..ENTRIES {
            put_key(&mut key, i as u64, i as u64);
            let start = i.wrapping_mul(101) as usize & 0x7fff;
            builder.add(&key, &text[start..start + 100]).expect("ascending");
        }
        let file = builder.finish();
        println!("rust build {}", from.elapsed().as_nanos() / ENTRIES as u128);
        println!("rust bytes {}", file.len());
        let from = Instant::now();
        let table = Table::check(&file).expect("a table");
        println!("rust check {}", from.elapsed().as_nanos() / ENTRIES as u128);
        let from = Instant::now();
        let mut scanned = 0;
        table.each(|_, value| {
            scanned += value.len();
            Some(())
        });
        println!("rust scan {}", from.elapsed().as_nanos() / ENTRIES as u128);
        let from = Instant::now();
        let mut read = 0;
        for i in 0..READS {
            put_key(&mut key, (i.wrapping_mul(2_654_435_761) >> 3) as u64 % ENTRIES as u64, (1 << 56) - 1);
            read += table.get(&key).map_or(0, |value| value.len());
        }
        println!("rust get {}", from.elapsed().as_nanos() / READS as u128);
        println!("rust values {scanned} {read}");
    }
}
