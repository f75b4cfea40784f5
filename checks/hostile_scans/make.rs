//! Writes a table of one data block that spells far more bytes of keys than it has: one huge key, then many short entries that share
//! nearly all of it. Each second entry has the sequence SEQ, the others SEQ + 2.
//!
//! make BYTES SEQ > FILE; the number in the last key goes to standard error.

use std::io::Write;

fn crc32c(bytes: &[u8]) -> u32 {
    let mut table = [0u32; 256];
    for i in 0..256 {
        let mut c = i as u32;
        for _ in 0..8 {
            c = if c & 1 == 1 { c >> 1 ^ 0x82f6_3b78 } else { c >> 1 };
        }
        table[i] = c;
    }
    !bytes.iter().fold(!0, |c, b| table[((c ^ *b as u32) & 0xff) as usize] ^ c >> 8)
}

fn put_varint(out: &mut Vec<u8>, mut n: usize) {
    while n >= 128 {
        out.push(n as u8 | 0x80);
        n >>= 7;
    }
    out.push(n as u8);
}

fn put_entry(out: &mut Vec<u8>, shared: usize, own: &[u8], value: &[u8]) {
    put_varint(out, shared);
    put_varint(out, own.len());
    put_varint(out, value.len());
    out.extend_from_slice(own);
    out.extend_from_slice(value);
}

/// Appends a block and its trailer; its handle comes back.
fn put_block(file: &mut Vec<u8>, text: &[u8]) -> Vec<u8> {
    let start = file.len();
    file.extend_from_slice(text);
    file.extend_from_slice(&[0, 0, 0, 0, 1, 0, 0, 0]);
    let mut handle = Vec::new();
    put_varint(&mut handle, start);
    put_varint(&mut handle, file.len() - start);
    file.push(0);
    let crc = crc32c(&file[start..]);
    let masked = crc.rotate_right(15).wrapping_add(0xa282_ead8);
    file.extend_from_slice(&masked.to_le_bytes());
    handle
}

/// What follows the user key: a value of a sequence.
fn tail(seq: u64) -> [u8; 8] {
    (seq << 8 | 1).to_le_bytes()
}

fn main() -> std::io::Result<()> {
    let words: Vec<String> = std::env::args().collect();
    let bytes: usize = words[1].parse().expect("BYTES");
    let seq: u64 = words[2].parse().expect("SEQ");
    let front = bytes / 2;
    let mut key = vec![b'a'; front];
    key.extend_from_slice(&tail(seq));
    let mut text = Vec::new();
    put_entry(&mut text, 0, &key, &[]);
    let mut number = 0u32;
    while text.len() < bytes {
        number += 1;
        let mut own = number.to_be_bytes().to_vec();
        own.extend_from_slice(&tail(seq + u64::from(number & 1) * 2));
        put_entry(&mut text, front, &own, &[]);
    }
    let mut file = Vec::new();
    let data = put_block(&mut file, &text);
    let mut entry = Vec::new();
    put_entry(&mut entry, 0, b"b\x01\x01\0\0\0\0\0\0", &data);
    let index = put_block(&mut file, &entry);
    let mut footer = put_block(&mut file, &[]);
    footer.extend_from_slice(&index);
    footer.resize(40, 0);
    footer.extend_from_slice(&0xdb47_7524_8b80_fb57u64.to_le_bytes());
    file.extend_from_slice(&footer);
    std::io::stdout().write_all(&file)?;
    eprintln!("{number}");
    Ok(())
}
