//! The measurement of speed: two programs that do the same turns and replies, run alternately, by processor time.
use std::io::Write;
use std::process::{Command, ExitCode, Stdio};

const RUNS: usize = 9;
const ROUNDS: u64 = 2_000_000;

extern "C" {
    /// From the C library: times of the children that ended, seconds and microseconds for user and system.
    fn getrusage(who: i32, usage: *mut [i64; 18]) -> i32;
}

/// Processor time of all children so far, in seconds.
fn children() -> f64 {
    let mut usage = [0i64; 18];
    let ok = unsafe { getrusage(-1, &mut usage) };
    assert!(ok == 0);
    (usage[0] + usage[2]) as f64 + (usage[1] + usage[3]) as f64 / 1e6
}

/// Runs a program on a line of input: its answer, and its processor time.
fn time(program: &str, line: &str) -> (String, f64) {
    let before = children();
    let mut child = Command::new(program)
        .stdin(Stdio::piped())
        .stdout(Stdio::piped())
        .spawn()
        .unwrap_or_else(|e| panic!("{program}: {e}"));
    child.stdin.take().unwrap().write_all(line.as_bytes()).expect("the program's input");
    let out = child.wait_with_output().expect("the program");
    assert!(out.status.success(), "{program} ended with {}", out.status);
    (String::from_utf8_lossy(&out.stdout).trim().to_string(), children() - before)
}

fn median(mut times: Vec<f64>) -> f64 {
    times.sort_by(f64::total_cmp);
    times[times.len() / 2]
}

pub fn measure(unit: &str, rust: &str) -> ExitCode {
    println!(
        "speed: {ROUNDS} rounds, medians of {RUNS} runs each, alternately, in nanoseconds of processor time a round"
    );
    println!("                             the unit   the Rust   ratio   the sum alone   ratio without it");
    for (mode, what) in ["all in exchange", "one answering"].iter().enumerate() {
        for balances in [1, 8, 32] {
            let line = format!("{mode} {balances} {ROUNDS}\n");
            let sum_only = format!("{mode} {balances} {ROUNDS} sum\n");
            let mut times = [Vec::new(), Vec::new(), Vec::new()];
            for _ in 0..RUNS {
                let (ours, t) = time(unit, &line);
                times[0].push(t);
                let (theirs, t) = time(rust, &line);
                times[1].push(t);
                times[2].push(time(rust, &sum_only).1);
                if ours != theirs {
                    println!("speed: DIFFERENCE at {line}the Rust: {theirs}\nthe unit: {ours}");
                    return ExitCode::from(1);
                }
            }
            let [a, b, c] = times.map(|t| median(t) * 1e9 / ROUNDS as f64);
            let rest = (a - c) / (b - c);
            println!("{what:>16}, {balances:>2} balances {a:10.1} {b:10.1} {:7.2} {c:15.1} {rest:18.2}", a / b);
        }
    }
    ExitCode::SUCCESS
}
