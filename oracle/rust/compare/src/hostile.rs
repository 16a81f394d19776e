//! Lines that are no calls: the lines of random scripts, broken in many ways. The oracle reads lines by the rules and
//! limits of docs/SCRIPTS.md; only whether a line is a call (the answer is not `?`) is compared, since the original is
//! not asked what stands outside the domain.
use crate::generate::{self, Marked, Size};
use crate::rng::Rng;
use crate::script::Script;
use oracle::Driver;
use std::io::{BufRead, BufReader, Write};
use std::process::{Command, ExitCode, Stdio};
use std::sync::mpsc::{channel, Sender};

const NUMBERS: [&str; 26] = [
    "0",
    "1",
    "2",
    "3",
    "4",
    "40",
    "41",
    "125",
    "126",
    "254",
    "255",
    "256",
    "300",
    "301",
    "16400",
    "16401",
    "65535",
    "65536",
    "1000000",
    "4294967295",
    "4294967296",
    "18446744073709551615",
    "18446744073709551616",
    "00",
    "01",
    "-1",
];
const BYTES: &[u8] = b"0123456789abcdefABCDEFGxXNASTRXQWIOGHDLPFB-+ \t\r\0\x80\xff";

fn field(rng: &mut Rng) -> Vec<u8> {
    match rng.below(8) {
        0 => b"-".to_vec(),
        1 => b"x".to_vec(),
        2 => Vec::new(),
        3 => {
            // bytes around the limit of 255
            let n = rng.pick(&[1, 2, 254, 255, 256, 300]);
            let mut hex = Vec::new();
            oracle::unit::bytes(&mut hex, &rng.bytes(n));
            let odd = usize::from(rng.chance(200));
            hex.drain(1..hex.len() - odd).collect()
        }
        _ => rng.pick(&NUMBERS).as_bytes().to_vec(),
    }
}

/// One step away from a line.
fn broken(rng: &mut Rng, line: &[u8]) -> Vec<u8> {
    let mut l = line.to_vec();
    let at = rng.below(l.len() + 1);
    match rng.below(16) {
        0..=1 if at < l.len() => {
            l.remove(at);
        }
        2..=3 => l.insert(at, rng.pick(BYTES)),
        4..=5 if at < l.len() => l[at] = rng.pick(BYTES),
        6 => l.push(b' '),
        7 => l.truncate(at),
        8 => {
            // as long as a line may be, and one longer
            let n = rng.pick(&[1_998, 1_999, 2_000, 2_100, 9_000]);
            l.resize(n, rng.pick(b"0 a"));
        }
        9 => l = rng.bytes(at),
        10 => {
            let letter = rng.pick(b"LPFB");
            let n = rng.pick(&[0, 1, 1, 6, 6, 6]);
            l = vec![letter];
            for _ in 0..n {
                l.push(b' ');
                l.extend(rng.pick(&NUMBERS).bytes());
            }
        }
        _ => {
            // a field of it is another one, twice there, or gone
            let mut fields: Vec<Vec<u8>> = l.split(|&c| c == b' ').map(<[u8]>::to_vec).collect();
            let k = rng.below(fields.len());
            match rng.below(6) {
                0 => fields.insert(k, field(rng)),
                1 => {
                    fields.remove(k);
                }
                _ => fields[k] = field(rng),
            }
            l = fields.join(&b' ');
        }
    }
    l.retain(|&c| c != b'\n');
    l
}

/// A batch of lines, each with its newline, and whether each is a call.
type Batch = Vec<(Vec<u8>, bool)>;

fn make(n: u64, seed: u64, batches: Sender<Batch>, mut program: impl Write) {
    let mut driver = Driver::new(false);
    let mut out = Vec::new();
    for k in 0..n {
        let mut rng = Rng::new(seed ^ 0x5eed, k);
        let mut s = Script::new(false);
        generate::script(&mut s, seed, k, Size::Small, Marked::Some);
        let mut batch = Batch::new();
        for line in s.text.split(|&c| c == b'\n').filter(|l| !l.is_empty() && *l != b"D") {
            let mut line = line.to_vec();
            while rng.chance(500) {
                line = broken(&mut rng, &line);
            }
            out.clear();
            driver.answer(&line, &mut out);
            line.push(b'\n');
            batch.push((line, out != b"?\n"));
        }
        let text: Vec<u8> = batch.iter().flat_map(|l| l.0.iter().copied()).collect();
        if batches.send(batch).is_err() || program.write_all(&text).is_err() {
            return;
        }
    }
    // the last line is not finished
    let _ = batches.send(vec![(b"H".to_vec(), false)]);
    let _ = program.write_all(b"H");
}

pub fn run(program: &str, n: u64, seed: u64) -> ExitCode {
    let mut child = Command::new(program)
        .stdin(Stdio::piped())
        .stdout(Stdio::piped())
        .spawn()
        .unwrap_or_else(|e| panic!("{program}: {e}"));
    let (stdin, mut stdout) = (child.stdin.take().unwrap(), BufReader::new(child.stdout.take().unwrap()));
    let (send, receive) = channel();
    let maker = std::thread::spawn(move || make(n, seed, send, stdin));
    let (mut calls, mut others) = (0u64, 0u64);
    let mut answer = Vec::new();
    for (line, is_call) in receive.into_iter().flatten() {
        answer.clear();
        stdout.read_until(b'\n', &mut answer).expect("the program's answers");
        let whole = answer.last() == Some(&b'\n');
        if !whole || (answer != b"?\n") != is_call {
            println!("lines: DIFFERENCE. The line: {:?}", String::from_utf8_lossy(&line));
            println!("by docs/SCRIPTS.md: {}", if is_call { "a call" } else { "?" });
            println!("the unit: {:?}", String::from_utf8_lossy(&answer));
            let _ = child.kill();
            let _ = child.wait();
            return ExitCode::from(1);
        }
        *(if is_call { &mut calls } else { &mut others }) += 1;
    }
    maker.join().expect("the maker of lines");
    let ended = child.wait().expect("the program");
    let more = stdout.fill_buf().map_or(true, |b| !b.is_empty());
    if more || !ended.success() {
        println!("lines: DIFFERENCE. The program ended with {ended}, more to say: {more}");
        return ExitCode::from(1);
    }
    println!(
        "lines: no difference, seed {seed}: {} lines, of which {calls} are calls and {others} are not",
        calls + others
    );
    ExitCode::SUCCESS
}
