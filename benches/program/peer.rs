//! The same work as `lsm mktable` and `lsm dump` in plain Rust, for comparison: `rustc --edition 2021 -O peer.rs`.
//! It reads whole, writes whole, and checks what the proved program checks. It is no part of the product.

mod table;

use std::io::{Read, Write};
use std::process::exit;
use table::{Builder, Table, split};

fn digit(byte: u8) -> Option<u8> {
    match byte {
        b'0'..=b'9' => Some(byte - b'0'),
        b'a'..=b'f' => Some(byte - b'a' + 10),
        b'A'..=b'F' => Some(byte - b'A' + 10),
        _ => None,
    }
}

fn read_bytes(out: &mut Vec<u8>, most: usize, word: &[u8]) -> Option<()> {
    out.clear();
    if word == b"." {
        return Some(());
    }
    if word.is_empty() || word.len() % 2 != 0 || word.len() / 2 > most {
        return None;
    }
    for pair in word.chunks_exact(2) {
        out.push(digit(pair[0])? << 4 | digit(pair[1])?);
    }
    Some(())
}

fn parts(text: &[u8], separator: u8) -> Option<(&[u8], &[u8])> {
    let place = text.iter().position(|byte| *byte == separator)?;
    Some((&text[..place], &text[place + 1..]))
}

/// Reads a line: the internal key into `key`, the value into `value`.
fn read_line(line: &[u8], key: &mut Vec<u8>, value: &mut Vec<u8>) -> Option<()> {
    let (key_word, rest) = parts(line, b' ')?;
    let (seq_word, action) = parts(rest, b' ')?;
    read_bytes(key, 4096, key_word)?;
    if seq_word.is_empty() || seq_word.len() > 20 {
        return None;
    }
    let mut seq = 0u64;
    for byte in seq_word {
        if !byte.is_ascii_digit() {
            return None;
        }
        seq = seq * 10 + (byte - b'0') as u64;
        if seq >= 1 << 56 {
            return None;
        }
    }
    let kind = if action == b"del" {
        value.clear();
        0
    } else {
        let (verb, word) = parts(action, b' ')?;
        if verb != b"put" {
            return None;
        }
        read_bytes(value, 1 << 20, word)?;
        1
    };
    key.extend_from_slice(&(seq << 8 | kind).to_le_bytes());
    Some(())
}

fn make_table(list: &[u8]) -> Result<Vec<u8>, usize> {
    let mut builder = Builder::new();
    let (mut key, mut value) = (Vec::new(), Vec::new());
    let mut rest = list;
    let mut number: usize = 0;
    while !rest.is_empty() {
        let (line, later) = parts(rest, b'\n').unwrap_or((rest, &[]));
        rest = later;
        number += 1;
        read_line(line, &mut key, &mut value).ok_or(number)?;
        builder.add(&key, &value).ok_or(number)?;
    }
    Ok(builder.finish())
}

fn push_hex(out: &mut Vec<u8>, bytes: &[u8]) {
    const DIGITS: &[u8; 16] = b"0123456789abcdef";
    if bytes.is_empty() {
        out.push(b'.');
    }
    for byte in bytes {
        out.push(DIGITS[(byte >> 4) as usize]);
        out.push(DIGITS[(byte & 15) as usize]);
    }
}

fn push_entry(out: &mut Vec<u8>, key: &[u8], value: &[u8]) -> Option<()> {
    let (user, packed) = split(key)?;
    push_hex(out, user);
    write!(out, " {} ", packed >> 8).ok()?;
    if packed & 1 == 0 {
        out.extend_from_slice(b"del");
    } else {
        out.extend_from_slice(b"put ");
        push_hex(out, value);
    }
    out.push(b'\n');
    Some(())
}

/// Checks the whole table first, and then prints it, as the proved program does.
fn dump(file: &[u8]) -> Option<Vec<u8>> {
    let mut out = Vec::new();
    Table::check(file)?.each(|key, value| push_entry(&mut out, key, value))?;
    Some(out)
}

fn main() {
    let mut input = Vec::new();
    std::io::stdin().lock().read_to_end(&mut input).expect("read");
    let output = match std::env::args().nth(1).as_deref() {
        Some("mktable") => make_table(&input).unwrap_or_else(|line| {
            eprintln!("bad line {line}");
            exit(1)
        }),
        Some("dump") => dump(&input).unwrap_or_else(|| {
            eprintln!("refused");
            exit(1)
        }),
        _ => exit(2),
    };
    std::io::stdout().lock().write_all(&output).expect("write");
}
