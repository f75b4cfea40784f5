//! Tables in plain Rust, for comparison with the proved ones. No part of the product.

use std::cmp::Ordering;

const BLOCK_SIZE: usize = 4096;
const INTERVAL: usize = 16;

struct Tables([[u32; 256]; 8]);

impl Tables {
    fn new() -> Tables {
        let mut tables = [[0u32; 256]; 8];
        for i in 0..256u32 {
            let mut register = i;
            for _ in 0..8 {
                register = (register >> 1) ^ (0x82F63B78 * (register & 1));
            }
            tables[0][i as usize] = register;
        }
        for k in 1..8 {
            for i in 0..256 {
                let before = tables[k - 1][i];
                tables[k][i] = (before >> 8) ^ tables[0][(before & 0xff) as usize];
            }
        }
        Tables(tables)
    }

    fn extend(&self, checksum: u32, bytes: &[u8]) -> u32 {
        let t = &self.0;
        let mut register = !checksum;
        let mut chunks = bytes.chunks_exact(8);
        for c in &mut chunks {
            let low = register ^ u32::from_le_bytes([c[0], c[1], c[2], c[3]]);
            let high = u32::from_le_bytes([c[4], c[5], c[6], c[7]]);
            register = t[7][(low & 0xff) as usize]
                ^ t[6][(low >> 8 & 0xff) as usize]
                ^ t[5][(low >> 16 & 0xff) as usize]
                ^ t[4][(low >> 24) as usize]
                ^ t[3][(high & 0xff) as usize]
                ^ t[2][(high >> 8 & 0xff) as usize]
                ^ t[1][(high >> 16 & 0xff) as usize]
                ^ t[0][(high >> 24) as usize];
        }
        for byte in chunks.remainder() {
            register = (register >> 8) ^ t[0][((register ^ *byte as u32) & 0xff) as usize];
        }
        !register
    }

    fn masked(&self, contents: &[u8], kind: u8) -> u32 {
        let checksum = self.extend(self.extend(0, contents), &[kind]);
        checksum.rotate_right(15).wrapping_add(0xa282ead8)
    }
}

fn put_varint(out: &mut Vec<u8>, mut n: u64) {
    while n >= 128 {
        out.push(n as u8 | 128);
        n >>= 7;
    }
    out.push(n as u8);
}

fn get_varint(bytes: &[u8], at: &mut usize) -> Option<u64> {
    let mut n = 0u64;
    for shift in (0..70).step_by(7) {
        let byte = *bytes.get(*at)?;
        *at += 1;
        n |= ((byte & 127) as u64).checked_shl(shift)?;
        if byte < 128 {
            return Some(n);
        }
    }
    None
}

#[derive(Default)]
struct Block {
    text: Vec<u8>,
    restarts: Vec<u32>,
    count: usize,
    last: Vec<u8>,
}

impl Block {
    fn add(&mut self, interval: usize, key: &[u8], value: &[u8]) {
        let mut shared = 0;
        if self.count % interval == 0 {
            self.restarts.push(self.text.len() as u32);
        } else {
            let most = key.len().min(self.last.len());
            while shared < most && key[shared] == self.last[shared] {
                shared += 1;
            }
        }
        put_varint(&mut self.text, shared as u64);
        put_varint(&mut self.text, (key.len() - shared) as u64);
        put_varint(&mut self.text, value.len() as u64);
        self.text.extend_from_slice(&key[shared..]);
        self.text.extend_from_slice(value);
        self.last.truncate(shared);
        self.last.extend_from_slice(&key[shared..]);
        self.count += 1;
    }

    fn size(&self) -> usize {
        self.text.len() + 4 * self.restarts.len() + 4
    }

    /// Appends the block and its trailer, and empties it. Its offset and size.
    fn store(&mut self, tables: &Tables, out: &mut Vec<u8>) -> (u64, u64) {
        let start = out.len();
        if self.restarts.is_empty() {
            self.restarts.push(0);
        }
        out.extend_from_slice(&self.text);
        for restart in &self.restarts {
            out.extend_from_slice(&restart.to_le_bytes());
        }
        out.extend_from_slice(&(self.restarts.len() as u32).to_le_bytes());
        let end = out.len();
        let masked = tables.masked(&out[start..end], 0);
        out.push(0);
        out.extend_from_slice(&masked.to_le_bytes());
        self.text.clear();
        self.restarts.clear();
        self.last.clear();
        self.count = 0;
        (start as u64, (end - start) as u64)
    }
}

pub fn split(key: &[u8]) -> Option<(&[u8], u64)> {
    let (user, tail) = key.split_at(key.len().checked_sub(8)?);
    let packed = u64::from_le_bytes(tail.try_into().ok()?);
    if packed & 0xff > 1 {
        return None;
    }
    Some((user, packed))
}

fn compare(a: &[u8], b: &[u8]) -> Option<Ordering> {
    let (a, b) = (split(a)?, split(b)?);
    Some(a.0.cmp(b.0).then(b.1.cmp(&a.1)))
}

/// A table that is being built.
pub struct Builder {
    tables: Tables,
    out: Vec<u8>,
    index: Block,
    data: Block,
    handle: Vec<u8>,
    last: Vec<u8>,
}

impl Builder {
    pub fn new() -> Builder {
        Builder { tables: Tables::new(), out: Vec::new(), index: Block::default(), data: Block::default(), handle: Vec::new(), last: Vec::new() }
    }

    fn close(&mut self) {
        let (offset, size) = self.data.store(&self.tables, &mut self.out);
        self.handle.clear();
        put_varint(&mut self.handle, offset);
        put_varint(&mut self.handle, size);
        self.index.add(1, &self.last, &self.handle);
    }

    /// Adds an entry, where its internal key comes after the last one.
    pub fn add(&mut self, key: &[u8], value: &[u8]) -> Option<()> {
        if !self.last.is_empty() && compare(&self.last, key)? != Ordering::Less {
            return None;
        }
        self.data.add(INTERVAL, key, value);
        self.last.clear();
        self.last.extend_from_slice(key);
        if self.data.size() >= BLOCK_SIZE {
            self.close();
        }
        Some(())
    }

    pub fn finish(mut self) -> Vec<u8> {
        if self.data.count > 0 {
            self.close();
        }
        let mut out = self.out;
        let metaindex = Block::default().store(&self.tables, &mut out);
        let index = self.index.store(&self.tables, &mut out);
        let start = out.len();
        for n in [metaindex.0, metaindex.1, index.0, index.1] {
            put_varint(&mut out, n);
        }
        out.resize(start + 40, 0);
        out.extend_from_slice(&0xdb4775248b80fb57u64.to_le_bytes());
        out
    }
}

/// The contents of a stored block whose checksum is right.
fn contents<'a>(tables: &Tables, file: &'a [u8], offset: u64, size: u64) -> Option<&'a [u8]> {
    let (start, end) = (offset as usize, offset.checked_add(size)? as usize);
    let contents = file.get(start..end)?;
    let trailer = file.get(end..end + 5)?;
    if tables.masked(contents, trailer[0]).to_le_bytes() != trailer[1..] || trailer[0] != 0 {
        return None;
    }
    Some(contents)
}

/// How the user key of one key stands to that of the next, of which so many bytes are shared and these are its own.
fn order(before: &[u8], shared: usize, own: &[u8]) -> Option<Ordering> {
    if own.len() < 8 || shared + 8 > before.len() {
        return Some(before.len().cmp(&(shared + own.len())));
    }
    Some(before.get(shared..before.len() - 8)?.cmp(&own[..own.len() - 8]))
}

/// Calls `take` with each key and value of a block, in order. The last key comes back.
fn scan(block: &[u8], mut take: impl FnMut(&[u8], &[u8]) -> Option<()>) -> Option<Vec<u8>> {
    let (front, count) = block.split_at(block.len().checked_sub(4)?);
    let count = u32::from_le_bytes(count.try_into().ok()?) as usize;
    let (text, restarts) = front.split_at(front.len().checked_sub(4 * count)?);
    let mut next = restarts.chunks_exact(4).map(|b| u32::from_le_bytes([b[0], b[1], b[2], b[3]]) as usize).peekable();
    let mut key = Vec::new();
    let mut at = 0;
    while at < text.len() {
        let start = at;
        let shared = get_varint(text, &mut at)? as usize;
        let unshared = get_varint(text, &mut at)? as usize;
        let length = get_varint(text, &mut at)? as usize;
        let own = text.get(at..at.checked_add(unshared)?)?;
        at += unshared;
        let value = text.get(at..at.checked_add(length)?)?;
        at += length;
        if shared > key.len() {
            return None;
        }
        let before = if start > 0 { Some((order(&key, shared, own)?, split(&key)?.1)) } else { None };
        key.truncate(shared);
        key.extend_from_slice(own);
        let packed = split(&key)?.1;
        if next.peek() == Some(&start) {
            if shared != 0 {
                return None;
            }
            next.next();
        }
        if before.is_some_and(|(user, newer)| user.then(packed.cmp(&newer)) != Ordering::Less) {
            return None;
        }
        take(&key, value)?;
    }
    if text.is_empty() || next.next().is_none() { Some(key) } else { None }
}

/// A checked table: its part before the footer, and its index block.
pub struct Table<'a> {
    body: &'a [u8],
    index: &'a [u8],
}

impl<'a> Table<'a> {
    /// Checks all blocks, their checksums, and the order of all keys.
    pub fn check(file: &'a [u8]) -> Option<Table<'a>> {
        let tables = Tables::new();
        let (body, footer) = file.split_at(file.len().checked_sub(48)?);
        if footer[40..] != 0xdb4775248b80fb57u64.to_le_bytes() {
            return None;
        }
        let mut at = 0;
        get_varint(footer, &mut at)?;
        get_varint(footer, &mut at)?;
        let (offset, size) = (get_varint(footer, &mut at)?, get_varint(footer, &mut at)?);
        let index = contents(&tables, body, offset, size)?;
        let mut bound: Vec<u8> = Vec::new();
        scan(index, |key, handle| {
            let mut at = 0;
            let data = contents(&tables, body, get_varint(handle, &mut at)?, get_varint(handle, &mut at)?)?;
            let mut first = true;
            let last = scan(data, |own, _| {
                if first && !bound.is_empty() && compare(&bound, own)? != Ordering::Less {
                    return None;
                }
                first = false;
                Some(())
            })?;
            if compare(&last, key)? == Ordering::Greater {
                return None;
            }
            bound.clear();
            bound.extend_from_slice(key);
            Some(())
        })?;
        Some(Table { body, index })
    }

    fn data(&self, handle: &[u8]) -> Option<&'a [u8]> {
        let mut at = 0;
        let (offset, size) = (get_varint(handle, &mut at)?, get_varint(handle, &mut at)?);
        self.body.get(offset as usize..(offset + size) as usize)
    }

    /// Calls `take` with each key and value, in order.
    pub fn each(&self, mut take: impl FnMut(&[u8], &[u8]) -> Option<()>) -> Option<()> {
        scan(self.index, |_, handle| scan(self.data(handle)?, &mut take).map(|_| ()))?;
        Some(())
    }

    /// The value of the first entry at or after the internal key, where that is of its user key and is no deletion.
    pub fn get(&self, key: &[u8]) -> Option<Vec<u8>> {
        let place = seek(self.index, key)?;
        let found = seek(self.data(place.1)?, key)?;
        let (user, packed) = split(&found.0)?;
        if user == split(key)?.0 && packed & 1 == 1 { Some(found.1.to_vec()) } else { None }
    }
}

/// The first entry of a block that is not below the key: a search among the restarts, then at most one interval of entries.
fn seek<'a>(block: &'a [u8], key: &[u8]) -> Option<(Vec<u8>, &'a [u8])> {
    let (front, count) = block.split_at(block.len().checked_sub(4)?);
    let count = u32::from_le_bytes(count.try_into().ok()?) as usize;
    let (text, restarts) = front.split_at(front.len().checked_sub(4 * count)?);
    let restart = |i: usize| u32::from_le_bytes([restarts[4 * i], restarts[4 * i + 1], restarts[4 * i + 2], restarts[4 * i + 3]]) as usize;
    let (mut low, mut high) = (0, count - 1);
    while low < high {
        let middle = (low + high + 1) / 2;
        let mut at = restart(middle);
        get_varint(text, &mut at)?;
        let unshared = get_varint(text, &mut at)? as usize;
        get_varint(text, &mut at)?;
        if compare(text.get(at..at + unshared)?, key)? == Ordering::Less {
            low = middle;
        } else {
            high = middle - 1;
        }
    }
    let mut at = restart(low);
    let mut own = Vec::new();
    while at < text.len() {
        let shared = get_varint(text, &mut at)? as usize;
        let unshared = get_varint(text, &mut at)? as usize;
        let length = get_varint(text, &mut at)? as usize;
        own.truncate(shared);
        own.extend_from_slice(text.get(at..at + unshared)?);
        at += unshared;
        let value = text.get(at..at + length)?;
        at += length;
        if compare(&own, key)? != Ordering::Less {
            return Some((own, value));
        }
    }
    None
}
