// The same log of 64 slots filled and scanned as in log.rattle, in plain Rust.
const SLOT: usize = 528;

#[allow(dead_code)]
struct Drive {
    current: Vec<[u8; SLOT]>,
    safe: Vec<[u8; SLOT]>,
}

#[allow(dead_code)]
impl Drive {
    fn new(slots: usize) -> Drive {
        Drive { current: vec![[0; SLOT]; slots], safe: vec![[0; SLOT]; slots] }
    }

    fn read(&self, slot: u32, out: &mut [u8; SLOT]) -> Result<(), u8> {
        *out = *self.current.get(slot as usize).ok_or(1)?;
        Ok(())
    }

    fn write(&mut self, slot: u32, bytes: &[u8; SLOT]) -> Result<(), u8> {
        *self.current.get_mut(slot as usize).ok_or(1)? = *bytes;
        Ok(())
    }

    fn flush(&mut self) {
        self.safe.copy_from_slice(&self.current);
    }

    fn cut(&mut self, kept: u64) {
        for (i, (safe, current)) in self.safe.iter_mut().zip(&self.current).enumerate() {
            if i < 64 && kept >> i & 1 == 1 {
                *safe = *current;
            }
        }
        self.current.copy_from_slice(&self.safe);
    }
}

#[derive(Clone, Copy)]
struct Write {
    address: u32,
    count: u16,
}

fn write_records(drive: &mut Drive, from: u64, address: u32, blocks: &[u8]) {
    let count = (blocks.len() / 512) as u16;
    let n = drive.current.len() as u64;
    let mut slot = [0; SLOT];
    for i in 0..count {
        let record = from + u64::from(i);
        slot[..8].copy_from_slice(&record.to_le_bytes());
        slot[8..12].copy_from_slice(&(address + u32::from(i)).to_le_bytes());
        slot[12..14].copy_from_slice(&i.to_le_bytes());
        slot[14..16].copy_from_slice(&count.to_le_bytes());
        let at = usize::from(i) * 512;
        slot[16..].copy_from_slice(&blocks[at..at + 512]);
        let _ = drive.write((record % n) as u32, &slot);
    }
}

fn scan(drive: &Drive, blocks: u32, from: u64, most: u64, found: &mut Vec<Write>) -> u64 {
    let n = drive.current.len() as u64;
    let mut slot = [0; SLOT];
    let mut at = from;
    found.clear();
    'writes: loop {
        let mut write = Write { address: 0, count: 1 };
        let mut i = 0u16;
        while i < write.count {
            let record = at + u64::from(i);
            if drive.read((record % n) as u32, &mut slot).is_err() {
                break 'writes;
            }
            let number = u64::from_le_bytes(slot[..8].try_into().unwrap());
            let address = u32::from_le_bytes(slot[8..12].try_into().unwrap());
            let index = u16::from_le_bytes(slot[12..14].try_into().unwrap());
            let count = u16::from_le_bytes(slot[14..16].try_into().unwrap());
            if i == 0 {
                write = Write { address, count };
                let end = u64::from(address) + u64::from(count);
                if count == 0 || count > 8 || end > u64::from(blocks) || at - from + u64::from(count) > most {
                    break 'writes;
                }
            }
            if number != record
                || index != i
                || count != write.count
                || u64::from(address) != u64::from(write.address) + u64::from(i)
            {
                break 'writes;
            }
            i += 1;
        }
        found.push(write);
        at += u64::from(write.count);
    }
    at
}

fn main() {
    let mut drive = Drive::new(64);
    let mut found = Vec::with_capacity(64);
    let blocks = vec![7u8; 4096];
    let mut from = 0u64;
    let mut sum = 0u64;
    for round in 0..1000u32 {
        let first = from;
        let mut left = 64;
        while left > 0 {
            let n = (round % 8 + 1).min(left);
            write_records(&mut drive, from, round % 1000, &blocks[..512 * n as usize]);
            from += u64::from(n);
            left -= n;
        }
        let end = scan(&drive, 1024, first, 64, &mut found);
        sum = sum.wrapping_mul(31).wrapping_add(end + found.len() as u64);
        for w in &found {
            sum = sum.wrapping_mul(31).wrapping_add(u64::from(w.address) + u64::from(w.count));
        }
    }
    println!("checksum {sum}");
}
