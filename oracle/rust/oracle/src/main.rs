//! Reads call scripts (docs/SCRIPTS.md) from standard input and writes the original's answers to standard output.
//! With the argument `wide` it also judges Stop, Clear and wishes made while data is asked, which stand outside the domain of
//! the comparison; with `beyond` it asks the original whatever it can be asked.
use std::io::{BufRead, Write};

fn main() {
    oracle::quiet_panics();
    let mut driver = match std::env::args().nth(1).as_deref() {
        Some("beyond") => oracle::Driver::beyond(),
        word => oracle::Driver::new(word == Some("wide")),
    };
    let mut input = std::io::stdin().lock();
    let mut output = std::io::BufWriter::with_capacity(1 << 16, std::io::stdout().lock());
    let (mut text, mut out) = (Vec::new(), Vec::new());
    loop {
        text.clear();
        out.clear();
        if input.read_until(b'\n', &mut text).expect("standard input") == 0 {
            break;
        }
        if text.last() == Some(&b'\n') {
            text.pop();
            driver.answer(&text, &mut out);
        } else {
            // an unfinished last line is no call
            out.extend_from_slice(b"?\n");
        }
        output.write_all(&out).expect("standard output");
    }
    output.flush().expect("standard output");
}
