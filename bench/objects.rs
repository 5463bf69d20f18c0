// The same objects read and applied as in objects.rattle, in plain Rust.
mod map;

use map::{Extent, Map, Place};

fn u32_at(bytes: &[u8], at: usize) -> u32 {
    u32::from_le_bytes(bytes[at..at + 4].try_into().unwrap())
}

fn u64_at(bytes: &[u8], at: usize) -> u64 {
    u64::from_le_bytes(bytes[at..at + 8].try_into().unwrap())
}

struct Header {
    kind: u32,
    number: u32,
    first: u64,
    entries: u32,
    tally: u32,
}

fn header(bytes: &[u8]) -> Option<Header> {
    if bytes.len() < 24 {
        return None;
    }
    Some(Header {
        kind: u32_at(bytes, 0),
        number: u32_at(bytes, 4),
        first: u64_at(bytes, 8),
        entries: u32_at(bytes, 16),
        tally: u32_at(bytes, 20),
    })
}

fn extent_at(bytes: &[u8], i: usize) -> Extent {
    let at = 24 + 16 * i;
    Extent {
        first: u32_at(bytes, at),
        length: u32_at(bytes, at + 4),
        target: Place { object: u32_at(bytes, at + 8), offset: u32_at(bytes, at + 12) },
    }
}

fn carrier_sound(h: &Header, bytes: &[u8], most: u32, blocks: u32) -> bool {
    if h.entries == 0 || h.entries > 32 || h.tally > 32 {
        return false;
    }
    if bytes.len() != 24 + 8 * h.entries as usize + 512 * h.tally as usize {
        return false;
    }
    let mut sum = 0u64;
    for i in 0..h.entries as usize {
        let address = u32_at(bytes, 24 + 8 * i);
        let count = u32_at(bytes, 28 + 8 * i);
        if count == 0 || count > most || u64::from(address) + u64::from(count) > u64::from(blocks) {
            return false;
        }
        sum += u64::from(count);
    }
    sum == u64::from(h.tally)
}

fn checkpoint_sound(h: &Header, bytes: &[u8], blocks: u32) -> bool {
    if h.tally != blocks || h.entries > 1024 || h.first >= 1 << 40 || bytes.len() != 24 + 16 * h.entries as usize {
        return false;
    }
    let mut last = Extent { first: 0, length: 0, target: Place { object: 0, offset: 0 } };
    for i in 0..h.entries as usize {
        let e = extent_at(bytes, i);
        let fits = e.length > 0
            && e.end() <= u64::from(blocks)
            && e.target.object > 0
            && e.target.object < h.number
            && u64::from(e.target.offset) + 512 * u64::from(e.length) <= 65_536;
        let joins = last.end() == u64::from(e.first) && last.target.leads_to(last.length, e.target);
        if !fits || last.end() > u64::from(e.first) || joins {
            return false;
        }
        last = e;
    }
    true
}

fn read(bytes: &[u8], name: u32, blocks: u32) -> Option<Header> {
    let h = header(bytes)?;
    if blocks == 0 || blocks > 1024 || h.number != name || name == 0 {
        return None;
    }
    let sound = match h.kind {
        1 => carrier_sound(&h, bytes, 8, blocks),
        2 => carrier_sound(&h, bytes, 32, blocks),
        3 => checkpoint_sound(&h, bytes, blocks),
        _ => false,
    };
    if sound { Some(h) } else { None }
}

fn apply(bytes: &[u8], name: u32, blocks: u32, map: &mut Map, records: &mut u64) -> bool {
    let Some(h) = read(bytes, name, blocks) else { return false };
    if h.kind == 3 {
        map.count = 0;
        for i in 0..h.entries as usize {
            map.append(extent_at(bytes, i));
        }
        *records = h.first;
    } else {
        let mut offset = 24 + 8 * h.entries;
        for i in 0..h.entries as usize {
            let address = u32_at(bytes, 24 + 8 * i);
            let count = u32_at(bytes, 28 + 8 * i);
            map.insert(address, count, Place { object: h.number, offset });
            offset += 512 * count;
        }
        if h.kind == 1 {
            *records += u64::from(h.tally);
        }
    }
    true
}

fn put(bytes: &mut Vec<u8>, value: u32) {
    bytes.extend_from_slice(&value.to_le_bytes());
}

fn main() {
    let mut data = Vec::new();
    for v in [1, 2000, 0, 0, 32, 32] {
        put(&mut data, v);
    }
    for i in 0..32 {
        put(&mut data, 31 * i);
        put(&mut data, 1);
    }
    data.resize(24 + 8 * 32 + 512 * 32, 7);
    let mut table = Vec::new();
    for v in [3, 1999, 5000, 0, 1024, 1024] {
        put(&mut table, v);
    }
    for i in 0..1024 {
        for v in [i, 1, i + 1, 24] {
            put(&mut table, v);
        }
    }
    let mut map = Map::with_room(1024);
    let mut records = 0u64;
    let mut sum = 0u64;
    for _ in 0..300 {
        for (bytes, name) in [(&table, 1999), (&data, 2000)] {
            if apply(bytes, name, 1024, &mut map, &mut records) {
                sum = sum.wrapping_mul(31).wrapping_add(records + map.count as u64);
            }
        }
    }
    println!("checksum {sum}");
}
