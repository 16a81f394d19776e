//! Puts the same call scripts to the oracle and to another program, and compares the answers byte for byte.
//!
//!   compare run PROGRAM N SEED CLASSES   the exhaustive part, then N random scripts; every class's count to the file CLASSES
//!   compare random PROGRAM N SEED CLASSES   the same without the exhaustive part
//!   compare wide PROGRAM N SEED CLASSES     outside the domain: every reply after a wish that came while data was asked, then N
//!                                           random scripts with such wishes, Stop and Clear
//!   compare lines PROGRAM N SEED            the lines of N scripts, broken: what is a call, and what gets `?`
//!   compare list STDIN STDOUT            writes the stored list and the oracle's answers to it
//!   compare show SEED K                  writes script K of a run to standard output
//!   compare speed UNIT RUST              runs two programs for the measurement of speed alternately
//!
//! Exit status: 0 no difference, 1 a difference, 4 a class that the run has to reach was not, 3 a script of our own that left
//! the domain.
mod classes;
mod config;
mod exhaustive;
mod generate;
mod hostile;
mod list;
mod rng;
mod script;
mod shrink;
mod speed;

use classes::{Classes, Group, FULL};
use generate::{Marked, Size};
use script::Script;
use std::io::{Read, Write};
use std::process::{Command, ExitCode, Stdio};
use std::sync::mpsc::{channel, Receiver, Sender};

#[derive(Clone, Copy, PartialEq, Eq)]
enum Part {
    All,
    Random,
    Wide,
}

/// Some scripts with the oracle's answers.
struct Batch {
    text: Vec<u8>,
    answers: Vec<u8>,
}

/// What was made: scripts and calls of the exhaustive part, and of the random part with its classes.
struct Made {
    exhaustive: (u64, u64),
    random: (u64, u64),
    classes: Classes,
}

/// Makes the scripts. Each batch goes to the checker before the program gets it, and only the program holds the maker up,
/// so that nobody waits for somebody who waits.
fn make(part: Part, n: u64, seed: u64, batches: Sender<Batch>, mut program: impl Write) -> Made {
    let mut s = Script::new(part == Part::Wide);
    let size = if part == Part::Wide { Size::Wide } else { Size::Full };
    let mut on = true;
    let mut pass = |s: &mut Script, least: usize| {
        if s.text.len() >= least && on {
            let batch = Batch { text: std::mem::take(&mut s.text), answers: std::mem::take(&mut s.answers) };
            let text = batch.text.clone();
            on = batches.send(batch).is_ok() && program.write_all(&text).is_ok();
        }
        on
    };
    match part {
        Part::All => exhaustive::all(&mut s, |s| pass(s, 1 << 18)),
        Part::Random => (),
        Part::Wide => exhaustive::late(&mut s, |s| pass(s, 1 << 18)),
    }
    let exhaustive = (s.classes.scripts(), s.calls);
    s.classes = Classes::new(part == Part::Wide);
    for k in 0..n {
        generate::script(&mut s, seed, k, size, Marked::Some);
        if !pass(&mut s, 1 << 18) {
            break;
        }
    }
    pass(&mut s, 0);
    Made { exhaustive, random: (s.classes.scripts(), s.calls - exhaustive.1), classes: s.classes }
}

fn lines(text: &[u8]) -> Vec<&[u8]> {
    text.split_inclusive(|&c| c == b'\n').collect()
}

fn text(line: &[u8]) -> String {
    String::from_utf8_lossy(line).trim_end_matches('\n').to_string()
}

fn show(script: &[Vec<u8>], wanted: &[u8], got: &[u8]) {
    for call in script {
        println!("{}", text(call));
    }
    println!("the call:  {}", text(script.last().unwrap()));
    println!("the Rust:  {}", text(wanted));
    println!("the unit:  {}", text(got));
}

/// Says where the answers part: the script so far, the call, both answers; then the same with a smaller script.
fn tell(program: &str, wide: bool, batch: &Batch, got: &[u8]) {
    let (calls, wanted, got) = (lines(&batch.text), lines(&batch.answers), lines(got));
    let at = (0..wanted.len()).find(|&k| got.get(k) != Some(&wanted[k])).unwrap_or(0);
    let first = (0..=at).rev().find(|&k| calls[k].starts_with(b"N ")).unwrap_or(0);
    println!("compare: DIFFERENCE. The script so far:");
    let script: Vec<Vec<u8>> = calls[first..=at].iter().map(|l| l.to_vec()).collect();
    show(&script, wanted[at], got.get(at).unwrap_or(&&b"(nothing more)"[..]));
    if let Some(small) = shrink::smallest(program, wide, script) {
        println!("compare: the same with a small script:");
        show(&small.script, &small.wanted, &small.got);
    }
}

/// Reads the program's answers and holds them to the oracle's. Answers the checksum, or None at a difference.
fn check(name: &str, wide: bool, batches: Receiver<Batch>, mut program: impl Read) -> Option<(u64, u64)> {
    let (mut sum, mut bytes) = (0xcbf2_9ce4_8422_2325u64, 0);
    let mut got = Vec::new();
    for batch in batches {
        got.resize(batch.answers.len(), 0);
        let mut have = 0;
        while have < got.len() {
            match program.read(&mut got[have..]) {
                Ok(0) | Err(_) => break,
                Ok(n) => have += n,
            }
        }
        if got[..have] != batch.answers[..] {
            // the rest of the line where they part
            got.truncate(have);
            let mut byte = [0];
            while got.last() != Some(&b'\n') && matches!(program.read(&mut byte), Ok(1)) {
                got.push(byte[0]);
            }
            tell(name, wide, &batch, &got);
            return None;
        }
        for &b in &got {
            sum = (sum ^ u64::from(b)).wrapping_mul(0x100_0000_01b3);
        }
        bytes += got.len() as u64;
    }
    let mut more = [0];
    if matches!(program.read(&mut more), Ok(1)) {
        println!("compare: DIFFERENCE. The unit answers more lines than there were calls");
        return None;
    }
    Some((sum, bytes))
}

fn run(program: &str, part: Part, n: u64, seed: u64, counts: &str) -> ExitCode {
    let mut child = Command::new(program)
        .stdin(Stdio::piped())
        .stdout(Stdio::piped())
        .spawn()
        .unwrap_or_else(|e| panic!("{program}: {e}"));
    let (stdin, stdout) = (child.stdin.take().unwrap(), child.stdout.take().unwrap());
    let (send, receive) = channel();
    let maker = std::thread::spawn(move || make(part, n, seed, send, stdin));
    let same = check(program, part == Part::Wide, receive, stdout);
    if same.is_none() {
        let _ = child.kill();
    }
    let ended = child.wait().expect("the program");
    let made = maker.join().expect("the maker of scripts");
    let Some((sum, bytes)) = same else {
        return ExitCode::from(1);
    };
    if !ended.success() {
        println!("compare: DIFFERENCE. Same answers, but the program ended with {ended}");
        return ExitCode::from(1);
    }
    let Made { exhaustive, random, classes } = made;
    println!("compare: no difference");
    println!("  exhaustive part: {} scripts, {} calls", exhaustive.0, exhaustive.1);
    println!("  random part, seed {seed}: {} scripts, {} calls", random.0, random.1);
    println!("  {bytes} bytes of answers, checksum {sum:016x}");
    classes.print_groups();
    classes.write_all(counts).expect("the file of counts");
    if n < FULL {
        let never = classes.each().filter(|c| c.2 == 0).count();
        let (all, then) = (classes.each().count(), classes.asked(FULL).count());
        println!("  {never} of {all} classes never occurred (a run of {FULL} scripts or more asks for {then})");
    }
    let (often, rare): (Vec<_>, Vec<_>) = classes.asked(n).partition(|c| c.2 >= c.3);
    for (group, label, count, least) in &rare {
        println!("compare: only {count} of {least}: {}: {label}", group.title());
    }
    if !rare.is_empty() {
        return ExitCode::from(4);
    }
    if !often.is_empty() {
        println!("  each of the {} classes that the run asks for occurred often enough", often.len());
    }
    ExitCode::SUCCESS
}

fn main() -> ExitCode {
    oracle::quiet_panics();
    let args: Vec<String> = std::env::args().skip(1).collect();
    let words: Vec<&str> = args.iter().map(String::as_str).collect();
    match words[..] {
        [part @ ("run" | "random" | "wide"), program, n, seed, counts] => {
            let part = match part {
                "run" => Part::All,
                "random" => Part::Random,
                _ => Part::Wide,
            };
            run(program, part, n.parse().expect("N"), seed.parse().expect("SEED"), counts)
        }
        ["lines", program, n, seed] => hostile::run(program, n.parse().expect("N"), seed.parse().expect("SEED")),
        ["list", stdin, stdout] => {
            let s = list::make();
            std::fs::write(stdin, &s.text).expect("the list");
            std::fs::write(stdout, &s.answers).expect("the answers");
            println!(
                "list: {} scripts, {} calls, {} and {} bytes",
                s.classes.scripts(),
                s.calls,
                s.text.len(),
                s.answers.len()
            );
            let never: Vec<_> = s.classes.each().filter(|c| c.2 == 0 && c.0 != Group::EachLimit).collect();
            for (group, label, _) in &never {
                println!("list: never: {}: {label}", group.title());
            }
            ExitCode::from(if never.is_empty() { 0 } else { 4 })
        }
        ["show", seed, k] => {
            let mut s = Script::new(false);
            generate::script(&mut s, seed.parse().expect("SEED"), k.parse().expect("K"), Size::Full, Marked::Some);
            std::io::stdout().write_all(&s.text).expect("standard output");
            ExitCode::SUCCESS
        }
        ["speed", unit, rust] => speed::measure(unit, rust),
        _ => {
            eprintln!("usage: compare run|random|wide PROGRAM N SEED CLASSES | lines PROGRAM N SEED | list STDIN STDOUT | show SEED K | speed UNIT RUST");
            ExitCode::from(2)
        }
    }
}
