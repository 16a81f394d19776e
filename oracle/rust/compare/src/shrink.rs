//! Makes a script that shows a difference as small as it gets by leaving lines out.
use oracle::Driver;
use std::io::Write;
use std::process::{Command, Stdio};

/// The answers of a program to these lines.
fn answers(program: &str, script: &[Vec<u8>]) -> Vec<Vec<u8>> {
    let mut child = Command::new(program).stdin(Stdio::piped()).stdout(Stdio::piped()).spawn().expect("the program");
    let (mut stdin, text) = (child.stdin.take().unwrap(), script.concat());
    let writer = std::thread::spawn(move || stdin.write_all(&text));
    let out = child.wait_with_output().expect("the program").stdout;
    let _ = writer.join();
    out.split_inclusive(|&c| c == b'\n').map(<[u8]>::to_vec).collect()
}

/// A script up to where the two part, with both answers to its last line.
pub struct Shown {
    pub script: Vec<Vec<u8>>,
    pub wanted: Vec<u8>,
    pub got: Vec<u8>,
}

/// Lines that the original is not asked change nothing and are left out; None where the two do not part.
fn parts(program: &str, wide: bool, script: &[Vec<u8>]) -> Option<Shown> {
    let mut driver = Driver::new(wide);
    let (mut kept, mut wanted) = (Vec::new(), Vec::new());
    for line in script {
        let mut answer = Vec::new();
        driver.answer(&line[..line.len() - 1], &mut answer);
        if answer.ends_with(b"panic\n") {
            break;
        }
        if !answer.ends_with(b"outside\n") && answer != b"?\n" {
            kept.push(line.clone());
            wanted.push(answer);
        }
    }
    let got = answers(program, &kept);
    let at = (0..kept.len()).find(|&k| got.get(k) != Some(&wanted[k]))?;
    kept.truncate(at + 1);
    Some(Shown { script: kept, wanted: wanted.swap_remove(at), got: got.get(at).cloned().unwrap_or_default() })
}

/// Leaves out ever smaller runs of lines, as long as the two still part.
pub fn smallest(program: &str, wide: bool, script: Vec<Vec<u8>>) -> Option<Shown> {
    let mut best = parts(program, wide, &script)?;
    let mut size = best.script.len();
    while size > 0 {
        let before = best.script.len();
        let mut from = 1;
        while from < best.script.len() {
            let to = (from + size).min(best.script.len());
            let tried: Vec<_> = best.script[..from].iter().chain(&best.script[to..]).cloned().collect();
            match parts(program, wide, &tried) {
                Some(shown) if shown.script.len() < best.script.len() => best = shown,
                _ => from += 1,
            }
        }
        if best.script.len() == before {
            size /= 2;
        }
    }
    Some(best)
}
