//! The original DP master behind call scripts (docs/SCRIPTS.md): `line` reads a line, `unit` makes the call on the
//! original text and writes the answer, `Driver` puts the two together over a stream of scripts.
pub mod line;
pub mod unit;

use line::Call;
use std::cell::Cell;
use std::panic::{catch_unwind, set_hook, take_hook, AssertUnwindSafe};
use unit::Unit;

thread_local! {
    /// A call of the original is running.
    static ASKED: Cell<bool> = const { Cell::new(false) };
}

/// Holds the unit of the script that is running.
pub struct Driver {
    pub unit: Option<Unit>,
    /// Stop and Clear are judged too, though the original says `todo!()` after setting them, and wishes made while data is
    /// asked, which the original gets when that request is closed.
    wide: bool,
    /// The original is asked whatever it can be asked, in the domain or not.
    beyond: bool,
    /// An N was read; it may have been one that the original is not asked.
    begun: bool,
    /// The original panicked in this script: its record may be half changed.
    dead: bool,
}

impl Driver {
    pub fn new(wide: bool) -> Self {
        Driver { unit: None, wide, beyond: false, begun: false, dead: false }
    }

    pub fn beyond() -> Self {
        Driver { beyond: true, ..Driver::new(false) }
    }

    /// Answers one line (with no newline in it); the answer has its newline.
    /// `?` for what is no call, `outside` for what the original is not asked, `panic` where it panics and from there on
    /// (beyond the domain: `panic` where it panics, `outside` from there on, `endless` where it would not return).
    pub fn answer(&mut self, text: &[u8], out: &mut Vec<u8>) {
        match line::read(text) {
            None => out.push(b'?'),
            Some(Call::N(p)) => {
                self.unit = Unit::new(&p, self.beyond);
                self.begun = true;
                self.dead = false;
                let word = if self.unit.is_some() { "N 0" } else { "N outside" };
                out.extend_from_slice(word.as_bytes());
            }
            Some(_) if !self.begun => out.push(b'?'),
            Some(call) => {
                out.push(text[0]);
                let start = out.len();
                let wide = self.wide;
                ASKED.set(true);
                let word: &[u8] = match self.unit.as_mut() {
                    None => b" outside",
                    Some(_) if self.dead && self.beyond => b" outside",
                    Some(_) if self.dead => b" panic",
                    Some(u) => match catch_unwind(AssertUnwindSafe(|| u.call(&call, wide, out))) {
                        Ok(true) => b"",
                        Ok(false) => b" outside",
                        Err(_) => {
                            self.dead = true;
                            b" panic"
                        }
                    },
                };
                ASKED.set(false);
                if !word.is_empty() {
                    out.truncate(start);
                    out.extend_from_slice(word);
                }
            }
        }
        out.push(b'\n');
    }
}

/// A panic of the original text is an answer: nothing is printed about it. Others are told as ever.
pub fn quiet_panics() {
    let usual = take_hook();
    set_hook(Box::new(move |what| {
        if !ASKED.get() || std::env::var_os("ORACLE_LOUD").is_some() {
            usual(what);
        }
    }));
}
