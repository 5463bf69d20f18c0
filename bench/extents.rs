// The same inserts and lookups as extents.rattle, in plain Rust.
mod map;

use map::{Map, Place};

fn next(seed: u32) -> u32 {
    seed.wrapping_mul(1664525).wrapping_add(1013904223)
}

fn main() {
    let mut map = Map::with_room(2048);
    for i in 0..1024u32 {
        map.insert(2 * i, 1, Place { object: i + 1, offset: 24 });
    }
    let mut seed = 7u32;
    let mut sum = 0u64;
    for round in 0..20000u32 {
        seed = next(seed);
        let a = (seed >> 8) % 2040;
        seed = next(seed);
        let n = (seed >> 8) % 3 + 1;
        if map.insert(a, n, Place { object: round % 512 + 1, offset: 24 + a * 512 }) {
            sum += 1;
        }
        for _ in 0..4 {
            seed = next(seed);
            if let Some(p) = map.lookup((seed >> 8) % 2100) {
                sum = sum.wrapping_mul(31).wrapping_add(u64::from(p.object) ^ u64::from(p.offset));
            }
        }
    }
    println!("{} extents, checksum {}", map.count, sum);
}
