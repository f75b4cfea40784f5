//! Writes a table whose data block, or whose index block, spells far more bytes of keys than it has: one huge key, then
//! many short entries that share nearly all of it. Its last key comes twice, so that it is refused once all is read.
//!
//! make data|index BYTES > FILE; the offset of the last entry in its block goes to standard error.

use std::io::Write;

fn crc32c(bytes: &[u8]) -> u32 {
    let mut table = [0u32; 256];
    for i in 0..256 {
        let mut c = i as u32;
        for _ in 0..8 {
            c = if c & 1 == 1 { c >> 1 ^ 0x82f6_3b78 } else { c >> 1 };
        }
        table[i] = c;
    }
    !bytes.iter().fold(!0, |c, b| table[((c ^ *b as u32) & 0xff) as usize] ^ c >> 8)
}

fn put_varint(out: &mut Vec<u8>, mut n: usize) {
    while n >= 128 {
        out.push(n as u8 | 0x80);
        n >>= 7;
    }
    out.push(n as u8);
}

fn put_entry(out: &mut Vec<u8>, shared: usize, own: &[u8], value: &[u8]) {
    put_varint(out, shared);
    put_varint(out, own.len());
    put_varint(out, value.len());
    out.extend_from_slice(own);
    out.extend_from_slice(value);
}

/// Appends a block and its trailer; its handle comes back.
fn put_block(file: &mut Vec<u8>, text: &[u8]) -> Vec<u8> {
    let start = file.len();
    file.extend_from_slice(text);
    file.extend_from_slice(&[0, 0, 0, 0, 1, 0, 0, 0]);
    let mut handle = Vec::new();
    put_varint(&mut handle, start);
    put_varint(&mut handle, file.len() - start);
    file.push(0);
    let crc = crc32c(&file[start..]);
    let masked = crc.rotate_right(15).wrapping_add(0xa282_ead8);
    file.extend_from_slice(&masked.to_le_bytes());
    handle
}

/// The text of such a block, and where its last entry starts.
fn hostile(bytes: usize) -> (Vec<u8>, usize) {
    const TAIL: [u8; 8] = [1, 1, 0, 0, 0, 0, 0, 0];
    let front = bytes / 2;
    let mut key = vec![b'a'; front];
    key.extend_from_slice(&TAIL);
    let mut text = Vec::new();
    put_entry(&mut text, 0, &key, &[]);
    let (mut number, mut last) = (0u32, 0);
    while text.len() < bytes {
        // The last number comes twice.
        let again = text.len() + 40 >= bytes;
        number += if again { 0 } else { 1 };
        let mut own = number.to_be_bytes().to_vec();
        own.extend_from_slice(&TAIL);
        last = text.len();
        put_entry(&mut text, front, &own, &[]);
        if again && number > 0 {
            break;
        }
    }
    (text, last)
}

fn main() -> std::io::Result<()> {
    let words: Vec<String> = std::env::args().collect();
    let (text, last) = hostile(words[2].parse().expect("BYTES"));
    let mut file = Vec::new();
    let index = if words[1] == "index" {
        put_block(&mut file, &text)
    } else {
        let data = put_block(&mut file, &text);
        let mut entry = Vec::new();
        put_entry(&mut entry, 0, b"b\x01\x01\0\0\0\0\0\0", &data);
        put_block(&mut file, &entry)
    };
    let meta = put_block(&mut file, &[]);
    let mut footer = meta;
    footer.extend_from_slice(&index);
    footer.resize(40, 0);
    footer.extend_from_slice(&0xdb47_7524_8b80_fb57u64.to_le_bytes());
    file.extend_from_slice(&footer);
    std::io::stdout().write_all(&file)?;
    eprintln!("{last}");
    Ok(())
}
