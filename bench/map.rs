// An extent map in plain Rust, for the twins that need one.
#![allow(dead_code)]

#[derive(Clone, Copy, PartialEq, Eq)]
pub struct Place {
    pub object: u32,
    pub offset: u32,
}

impl Place {
    pub fn advance(self, n: u32) -> Option<Place> {
        let offset = self.offset.checked_add(n.checked_mul(512)?)?;
        Some(Place { offset, ..self })
    }

    pub fn leads_to(self, n: u32, next: Place) -> bool {
        self.object == next.object && u64::from(self.offset) + 512 * u64::from(n) == u64::from(next.offset)
    }
}

#[derive(Clone, Copy)]
pub struct Extent {
    pub first: u32,
    pub length: u32,
    pub target: Place,
}

impl Extent {
    pub fn end(&self) -> u64 {
        u64::from(self.first) + u64::from(self.length)
    }
}

pub struct Map {
    pub blocks: u32,
    pub table: Vec<Extent>,
    pub count: usize,
}

impl Map {
    pub fn with_room(blocks: u32) -> Map {
        let none = Extent { first: 0, length: 0, target: Place { object: 0, offset: 0 } };
        Map { blocks, table: vec![none; blocks as usize + 2], count: 0 }
    }

    // How many extents end before x.
    pub fn reached(&self, x: u64) -> usize {
        self.table[..self.count].partition_point(|e| e.end() < x)
    }

    pub fn lookup(&self, block: u32) -> Option<Place> {
        let i = self.reached(u64::from(block) + 1);
        let e = self.table[..self.count].get(i)?;
        if e.first <= block { e.target.advance(block - e.first) } else { None }
    }

    pub fn insert(&mut self, first: u32, length: u32, target: Place) -> bool {
        let end = match first.checked_add(length) {
            Some(end) if length > 0 && end <= self.blocks => end,
            _ => return false,
        };
        if target.advance(length - 1).is_none() {
            return false;
        }
        let mut new = Extent { first, length, target };
        let from = self.reached(u64::from(first));
        let mut upto = self.reached(u64::from(end) + 1);
        let mut right = None;
        if upto < self.count {
            let x = self.table[upto];
            if x.first <= end {
                let skipped = end - x.first;
                if let (Some(t), true) = (x.target.advance(skipped), x.end() > u64::from(end)) {
                    let rest = Extent { first: end, length: x.length - skipped, target: t };
                    if new.target.leads_to(new.length, rest.target) {
                        new.length += rest.length;
                    } else {
                        right = Some(rest);
                    }
                }
                upto += 1;
            }
        }
        let mut left = None;
        if from < self.count {
            let x = self.table[from];
            if x.first < first {
                let part = Extent { first: x.first, length: first - x.first, target: x.target };
                if part.target.leads_to(part.length, new.target) {
                    new = Extent { first: part.first, length: part.length + new.length, target: part.target };
                } else {
                    left = Some(part);
                }
            }
        }
        let width = 1 + usize::from(left.is_some()) + usize::from(right.is_some());
        self.table.copy_within(upto..self.count, from + width);
        self.count = self.count - (upto - from) + width;
        let mut at = from;
        if let Some(e) = left {
            self.table[at] = e;
            at += 1;
        }
        self.table[at] = new;
        if let Some(e) = right {
            self.table[at + 1] = e;
        }
        true
    }

    pub fn append(&mut self, e: Extent) -> bool {
        if e.length == 0 || e.end() > u64::from(self.blocks) || e.target.advance(e.length - 1).is_none() {
            return false;
        }
        if let Some(last) = self.count.checked_sub(1).map(|i| self.table[i]) {
            let joins = last.end() == u64::from(e.first) && last.target.leads_to(last.length, e.target);
            if last.end() > u64::from(e.first) || joins {
                return false;
            }
        }
        self.table[self.count] = e;
        self.count += 1;
        true
    }
}
