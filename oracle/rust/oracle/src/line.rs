//! A line of a call script, read by the rules and limits of docs/SCRIPTS.md; `None` is what gets the answer `?`.

pub struct Creation {
    pub own: u8,
    pub retry: u8,
    pub slot_time: u32,
    pub watchdog: Option<(u8, u8)>,
    pub tsdr: u8,
    pub pools: [u16; 4],
}

pub struct Addition {
    pub addr: u8,
    pub ident: u16,
    pub sync: bool,
    pub freeze: bool,
    pub groups: u8,
    pub fail_safe: bool,
    pub user: Option<Vec<u8>>,
    pub config: Option<Vec<u8>>,
    /// inputs, outputs, room for extended diagnosis
    pub lengths: [u16; 3],
}

pub struct Reply {
    pub addr: u8,
    /// 0 short confirmation, 1 data, 2 token, 3 request telegram
    pub kind: u8,
    pub dsap: u8,
    pub ssap: u8,
    pub status: u8,
    pub payload: Vec<u8>,
}

pub enum Call {
    N(Creation),
    A(Addition),
    S(u8),
    T {
        now: u64,
        high_prio: bool,
    },
    R(Reply),
    X {
        slot: u8,
        new: u8,
    },
    Q {
        slot: u8,
    },
    W {
        slot: u8,
        bytes: Vec<u8>,
    },
    I {
        slot: u8,
    },
    O {
        slot: u8,
    },
    G {
        slot: u8,
    },
    H,
    D,
    F(u8),
    /// L, P and B: what the original has no notion of
    Other,
}

struct Fields<'l>(std::slice::Split<'l, u8, fn(&u8) -> bool>);

impl<'l> Fields<'l> {
    fn next(&mut self) -> Option<&'l [u8]> {
        self.0.next()
    }

    fn upto(&mut self, most: u64) -> Option<u64> {
        number(self.next()?).filter(|&n| n <= most)
    }

    fn byte(&mut self) -> Option<u8> {
        self.upto(255).map(|n| n as u8)
    }

    fn word(&mut self) -> Option<u16> {
        self.upto(65_535).map(|n| n as u16)
    }

    fn flag(&mut self) -> Option<bool> {
        self.upto(1).map(|n| n == 1)
    }

    fn bytes(&mut self) -> Option<Vec<u8>> {
        bytes(self.next()?)
    }

    fn setup(&mut self) -> Option<Option<Vec<u8>>> {
        match self.next()? {
            b"x" => Some(None),
            text => bytes(text).map(Some),
        }
    }

    fn end(&mut self) -> Option<()> {
        match self.next() {
            None => Some(()),
            Some(_) => None,
        }
    }
}

/// Decimal digits with no leading zero, below 2^64.
fn number(text: &[u8]) -> Option<u64> {
    if text.is_empty() || text.len() > 1 && text[0] == b'0' {
        return None;
    }
    let mut n = 0u64;
    for &c in text {
        if !c.is_ascii_digit() {
            return None;
        }
        n = n.checked_mul(10)?.checked_add(u64::from(c - b'0'))?;
    }
    Some(n)
}

fn digit(c: u8) -> Option<u8> {
    match c {
        b'0'..=b'9' => Some(c - b'0'),
        b'a'..=b'f' => Some(c - b'a' + 10),
        _ => None,
    }
}

/// Two lower-case hex digits a byte, at most 255 bytes; `-` for none.
fn bytes(text: &[u8]) -> Option<Vec<u8>> {
    if text == b"-" {
        return Some(Vec::new());
    }
    if text.is_empty() || text.len() % 2 == 1 || text.len() > 510 {
        return None;
    }
    text.chunks_exact(2).map(|p| Some(digit(p[0])? * 16 + digit(p[1])?)).collect()
}

/// Reads a line; the newline is not part of `text`.
pub fn read(text: &[u8]) -> Option<Call> {
    if text.len() > 1_999 {
        return None;
    }
    let is_space: fn(&u8) -> bool = |&c| c == b' ';
    let mut f = Fields(text.split(is_space));
    let call = match f.next()? {
        b"N" => {
            let (own, retry) = (f.byte()?, f.byte()?);
            let slot_time = f.upto(0xffff_ffff)? as u32;
            let (on, f1, f2, tsdr) = (f.flag()?, f.byte()?, f.byte()?, f.byte()?);
            let pools = [f.word()?, f.word()?, f.word()?, f.word()?];
            Call::N(Creation { own, retry, slot_time, watchdog: on.then_some((f1, f2)), tsdr, pools })
        }
        b"A" => Call::A(Addition {
            addr: f.byte()?,
            ident: f.word()?,
            sync: f.flag()?,
            freeze: f.flag()?,
            groups: f.byte()?,
            fail_safe: f.flag()?,
            user: f.setup()?,
            config: f.setup()?,
            lengths: [f.word()?, f.word()?, f.word()?],
        }),
        b"S" => Call::S(f.upto(2)? as u8),
        b"T" => Call::T { now: f.upto(u64::MAX)?, high_prio: f.flag()? },
        b"R" => {
            let r = Reply {
                addr: f.byte()?,
                kind: f.upto(3)? as u8,
                dsap: f.byte()?,
                ssap: f.byte()?,
                status: f.byte()?,
                payload: f.bytes()?,
            };
            let bare = r.dsap == 255 && r.ssap == 255 && r.status == 0 && r.payload.is_empty();
            if r.kind % 2 == 0 && !bare {
                return None;
            }
            Call::R(r)
        }
        b"X" => {
            let (slot, _, new) = (f.byte()?, f.byte()?, f.byte()?);
            Call::X { slot, new }
        }
        b"W" => {
            let (slot, _, bytes) = (f.byte()?, f.byte()?, f.bytes()?);
            Call::W { slot, bytes }
        }
        letter @ (b"Q" | b"I" | b"O" | b"G") => {
            let (slot, _) = (f.byte()?, f.byte()?);
            match letter[0] {
                b'Q' => Call::Q { slot },
                b'I' => Call::I { slot },
                b'O' => Call::O { slot },
                _ => Call::G { slot },
            }
        }
        b"H" => Call::H,
        b"D" => Call::D,
        b"B" => Call::Other,
        b"F" => Call::F(f.byte()?),
        b"P" => {
            f.byte()?;
            Call::Other
        }
        b"L" => {
            for _ in 0..4 {
                f.upto(16_400)?;
            }
            f.upto(300)?;
            f.upto(40)?;
            Call::Other
        }
        _ => return None,
    };
    f.end()?;
    Some(call)
}
