//! The stored list: short scripts with small images, chosen so that every class occurs. First those that bring many new
//! classes for their size, then those that bring fewer, then any that bring one; the marked kind stands last.
use crate::classes::Group;
use crate::generate::{self, Marked, Size};
use crate::script::Script;

const SEED: u64 = 6;
const CANDIDATES: u64 = 25_000;
/// Scripts of the marked kind at the end of the list.
const MARKED: u64 = 6;

/// How often a class should occur; once where it takes a long script, and each limit by itself is not asked for.
fn wanted(g: Group) -> u64 {
    match g {
        Group::EachLimit => 0,
        Group::Balances | Group::SilentLimit | Group::FallSlot => 1,
        _ => 2,
    }
}

pub fn make() -> Script {
    let mut list = Script::new(false);
    for gain in [30, 10, 5, 2, 1, 0] {
        for k in 0..CANDIDATES {
            consider(&mut list, k, gain);
        }
    }
    for k in 0..MARKED {
        generate::script(&mut list, SEED, k, Size::Small, Marked::OtherConfig);
    }
    list
}

/// Keeps script `k` where it brings classes that are still wanted, at least `gain` for each 1,000 bytes.
fn consider(list: &mut Script, k: u64, gain: usize) {
    let (text, answers, calls) = (list.text.len(), list.answers.len(), list.calls);
    let counts = list.classes.counts.clone();
    generate::script(list, SEED, k, Size::Small, Marked::None);
    let each = list.classes.each().zip(&counts);
    let brings = each.filter(|((g, _, now), before)| **before < wanted(*g) && now > *before);
    let (brings, bytes) = (brings.count(), list.text.len() - text + list.answers.len() - answers);
    if brings == 0 || brings * 1_000 < gain * bytes {
        list.text.truncate(text);
        list.answers.truncate(answers);
        list.calls = calls;
        list.classes.counts = counts;
    }
}
