// The same puts, polls, gets and deletes as stores.rattle, in plain Rust.
const LARGEST: usize = 16_664;
const PAGE: usize = 1_024;

trait Store {
    fn put(&mut self, number: u32, bytes: &[u8]) -> Result<(), u8>;
    fn poll(&mut self) -> Option<u32>;
    fn get(&self, number: u32, from: u32, out: &mut [u8]) -> Result<(), u8>;
    fn delete(&mut self, number: u32) -> Result<(), u8>;
}

struct Item {
    number: u32,
    length: u32,
    landed: bool,
}

struct Packed {
    items: Vec<Item>,
    area: Vec<u8>,
}

impl Packed {
    fn new(bytes: usize) -> Packed {
        Packed { items: Vec::with_capacity(bytes / 13), area: vec![0; bytes] }
    }

    fn used(&self) -> usize {
        self.items.iter().map(|i| i.length as usize).sum()
    }

    fn find(&self, number: u32) -> Option<(usize, usize)> {
        let mut start = 0;
        for (k, i) in self.items.iter().enumerate() {
            if i.landed && i.number == number {
                return Some((k, start));
            }
            start += i.length as usize;
        }
        None
    }
}

impl Store for Packed {
    fn put(&mut self, number: u32, bytes: &[u8]) -> Result<(), u8> {
        if bytes.is_empty() || bytes.len() > LARGEST {
            return Err(1);
        }
        if number == 0 || self.items.iter().any(|i| i.number == number) {
            return Err(2);
        }
        if self.items.iter().filter(|i| !i.landed).count() >= 8 {
            return Err(3);
        }
        let used = self.used();
        if used + 12 * self.items.len() + bytes.len() + 12 > self.area.len() {
            return Err(4);
        }
        self.area[used..used + bytes.len()].copy_from_slice(bytes);
        self.items.push(Item { number, length: bytes.len() as u32, landed: false });
        Ok(())
    }

    fn poll(&mut self) -> Option<u32> {
        let item = self.items.iter_mut().find(|i| !i.landed)?;
        item.landed = true;
        Some(item.number)
    }

    fn get(&self, number: u32, from: u32, out: &mut [u8]) -> Result<(), u8> {
        let (k, start) = self.find(number).ok_or(5)?;
        let length = self.items[k].length as usize;
        let from = from as usize;
        if from > length || out.len() > length - from {
            return Err(6);
        }
        out.copy_from_slice(&self.area[start + from..start + from + out.len()]);
        Ok(())
    }

    fn delete(&mut self, number: u32) -> Result<(), u8> {
        let (k, start) = self.find(number).ok_or(5)?;
        let used = self.used();
        let length = self.items[k].length as usize;
        self.area.copy_within(start + length..used, start);
        self.items.remove(k);
        Ok(())
    }
}

struct PagedItem {
    number: u32,
    length: u32,
    landed: bool,
    pages: [u8; 17],
}

struct Paged {
    items: Vec<PagedItem>,
    free: Vec<u8>,
    area: Vec<u8>,
}

impl Paged {
    fn new(pages: usize) -> Paged {
        Paged { items: Vec::with_capacity(pages), free: (0..pages as u8).collect(), area: vec![0; pages * PAGE] }
    }
}

impl Store for Paged {
    fn put(&mut self, number: u32, bytes: &[u8]) -> Result<(), u8> {
        if bytes.is_empty() || bytes.len() > LARGEST {
            return Err(1);
        }
        if number == 0 || self.items.iter().any(|i| i.number == number) {
            return Err(2);
        }
        if self.items.iter().filter(|i| !i.landed).count() >= 8 {
            return Err(3);
        }
        if bytes.len().div_ceil(PAGE) > self.free.len() {
            return Err(4);
        }
        let mut pages = [0; 17];
        for (k, part) in bytes.chunks(PAGE).enumerate() {
            let page = self.free.pop().unwrap();
            pages[k] = page;
            let at = page as usize * PAGE;
            self.area[at..at + part.len()].copy_from_slice(part);
        }
        self.items.push(PagedItem { number, length: bytes.len() as u32, landed: false, pages });
        Ok(())
    }

    fn poll(&mut self) -> Option<u32> {
        let item = self.items.iter_mut().rev().find(|i| !i.landed)?;
        item.landed = true;
        Some(item.number)
    }

    fn get(&self, number: u32, from: u32, out: &mut [u8]) -> Result<(), u8> {
        let item = self.items.iter().find(|i| i.landed && i.number == number).ok_or(5)?;
        let length = item.length as usize;
        let from = from as usize;
        if from > length || out.len() > length - from {
            return Err(6);
        }
        let mut done = 0;
        while done < out.len() {
            let at = from + done;
            let within = at % PAGE;
            let n = (PAGE - within).min(out.len() - done);
            let start = item.pages[at / PAGE] as usize * PAGE + within;
            out[done..done + n].copy_from_slice(&self.area[start..start + n]);
            done += n;
        }
        Ok(())
    }

    fn delete(&mut self, number: u32) -> Result<(), u8> {
        let k = self.items.iter().position(|i| i.landed && i.number == number).ok_or(5)?;
        let item = self.items.remove(k);
        for p in &item.pages[..(item.length as usize).div_ceil(PAGE)] {
            self.free.push(*p);
        }
        Ok(())
    }
}

fn work<S: Store>(store: &mut S, sum: &mut u64) {
    let mut bytes = vec![0u8; LARGEST];
    let mut out = vec![0u8; LARGEST];
    for round in 0..300u32 {
        bytes[(round % 16_664) as usize] = (round % 251) as u8;
        for k in 1..=4u32 {
            match store.put(3 * round + k, &bytes) {
                Ok(()) => *sum += 1,
                Err(e) => *sum += 100 * u64::from(e),
            }
        }
        while let Some(n) = store.poll() {
            *sum = sum.wrapping_mul(31).wrapping_add(u64::from(n));
        }
        for k in 1..=3u32 {
            let _ = store.get(3 * round + k, 0, &mut out);
            *sum = sum.wrapping_mul(31).wrapping_add(u64::from(out[(round % 16_664) as usize]));
        }
        for k in 1..=3u32 {
            let _ = store.delete(3 * round + k);
        }
    }
}

fn main() {
    let mut sum = 0u64;
    work(&mut Paged::new(64), &mut sum);
    work(&mut Packed::new(65_536), &mut sum);
    println!("checksum {sum}");
}
