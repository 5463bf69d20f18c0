// The same million lines parsed and answered as in lines.rattle, in plain Rust.
#[derive(Clone, Copy)]
enum StoreKind {
    Paged,
    Packed,
}

#[derive(Clone, Copy)]
enum DriveKind {
    Buffered,
    Direct,
}

enum Call<'a> {
    Make { blocks: u32, slots: u32, store: StoreKind, drive: DriveKind },
    Write { address: u32, fill: &'a [u8] },
    Read { address: u32, count: u32 },
    Flush,
    Seal,
    Poll,
    Checkpoint,
    Clean { object: u32 },
    Reap,
    CutKept { store: u32, drive: u32 },
    CutLost { store: u32 },
    Mount,
}

struct Lexer<'a> {
    rest: &'a [u8],
}

impl<'a> Lexer<'a> {
    fn take(&mut self, b: u8) -> Option<()> {
        let (first, rest) = self.rest.split_first()?;
        if *first != b {
            return None;
        }
        self.rest = rest;
        Some(())
    }

    fn word(&mut self) -> Option<&'a [u8]> {
        let n = self.rest.iter().position(|b| !b.is_ascii_lowercase()).unwrap_or(self.rest.len());
        if n == 0 {
            return None;
        }
        let (word, rest) = self.rest.split_at(n);
        self.rest = rest;
        Some(word)
    }

    fn number(&mut self) -> Option<u32> {
        let n = self.rest.iter().position(|b| !b.is_ascii_digit()).unwrap_or(self.rest.len());
        if n == 0 || (n > 1 && self.rest[0] == b'0') {
            return None;
        }
        let (digits, rest) = self.rest.split_at(n);
        self.rest = rest;
        digits.iter().try_fold(0u32, |v, b| v.checked_mul(10)?.checked_add(u32::from(b - b'0')))
    }

    fn item(&mut self) -> Option<u32> {
        self.take(b' ')?;
        self.number()
    }

    fn item_word(&mut self) -> Option<&'a [u8]> {
        self.take(b' ')?;
        self.word()
    }

    fn list(&mut self) -> Option<&'a [u8]> {
        self.take(b' ')?;
        self.take(b'(')?;
        let start = self.rest;
        if self.rest.first() != Some(&b')') {
            loop {
                if self.number()? > 255 {
                    return None;
                }
                if self.rest.first() == Some(&b')') {
                    break;
                }
                self.take(b' ')?;
            }
        }
        let inside = &start[..start.len() - self.rest.len()];
        self.take(b')')?;
        Some(inside)
    }
}

fn parse(line: &[u8]) -> Option<Call<'_>> {
    if line.len() > 255 {
        return None;
    }
    let mut lexer = Lexer { rest: line };
    lexer.take(b'(')?;
    let call = match lexer.word()? {
        b"make" => Call::Make {
            blocks: lexer.item()?,
            slots: lexer.item()?,
            store: match lexer.item_word()? {
                b"paged" => StoreKind::Paged,
                b"packed" => StoreKind::Packed,
                _ => return None,
            },
            drive: match lexer.item_word()? {
                b"buffered" => DriveKind::Buffered,
                b"direct" => DriveKind::Direct,
                _ => return None,
            },
        },
        b"write" => Call::Write { address: lexer.item()?, fill: lexer.list()? },
        b"read" => Call::Read { address: lexer.item()?, count: lexer.item()? },
        b"flush" => Call::Flush,
        b"seal" => Call::Seal,
        b"poll" => Call::Poll,
        b"checkpoint" => Call::Checkpoint,
        b"clean" => Call::Clean { object: lexer.item()? },
        b"reap" => Call::Reap,
        b"cut" => match lexer.item_word()? {
            b"kept" => Call::CutKept { store: lexer.item()?, drive: lexer.item()? },
            b"lost" => Call::CutLost { store: lexer.item()? },
            _ => return None,
        },
        b"mount" => Call::Mount,
        _ => return None,
    };
    lexer.take(b')')?;
    if lexer.rest.is_empty() { Some(call) } else { None }
}

// How many numbers a list's text has.
fn count(text: &[u8]) -> u64 {
    if text.is_empty() { 0 } else { 1 + text.iter().filter(|b| **b == b' ').count() as u64 }
}

fn values(call: &Call) -> (u64, u64) {
    match call {
        Call::Make { blocks, slots, store, drive } => {
            (u64::from(*blocks) + u64::from(*slots), *store as u64 + 2 * *drive as u64)
        }
        Call::Write { address, fill } => (u64::from(*address), count(fill)),
        Call::Read { address, count } => (u64::from(*address), u64::from(*count)),
        Call::Flush => (1, 0),
        Call::Seal => (2, 0),
        Call::Poll => (3, 0),
        Call::Checkpoint => (4, 0),
        Call::Clean { object } => (5, u64::from(*object)),
        Call::Reap => (6, 0),
        Call::CutKept { store, drive } => (u64::from(*store), u64::from(*drive)),
        Call::CutLost { store } => (7, u64::from(*store)),
        Call::Mount => (8, 0),
    }
}

fn answer(out: &mut String, line: u64, granted: bool, items: &[u64]) {
    use std::fmt::Write;
    out.clear();
    let _ = write!(out, "({} {}", line, if granted { "ok" } else { "no" });
    for item in items {
        let _ = write!(out, " {item}");
    }
    out.push(')');
}

fn main() {
    let lines: [&[u8]; 8] = [
        b"(make 8 16 paged buffered)",
        b"(write 2 (65 66 67 68))",
        b"(seal)",
        b"(read 2 2)",
        b"(cut kept 4294967295 3)",
        b"(write 2 (256))",
        b"(checkpoint)",
        b"(clean 12345) ",
    ];
    let mut sum = 0u64;
    let mut out = String::with_capacity(128);
    for n in 0..1_000_000u64 {
        match parse(lines[(n % 8) as usize]) {
            Some(call) => {
                let (a, b) = values(&call);
                answer(&mut out, n + 1, true, &[a, b]);
            }
            None => answer(&mut out, n + 1, false, &[16]),
        }
        sum = sum.wrapping_mul(31).wrapping_add(out.len() as u64);
    }
    println!("checksum {sum}");
}
