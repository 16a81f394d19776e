//! Configuration bytes by the standard's identifier bytes, so that they add up to the lengths of the images.
use crate::rng::Rng;

/// Total inputs and outputs of a configuration; None where an entry is cut off.
pub fn totals(config: &[u8]) -> Option<(usize, usize)> {
    let (mut inputs, mut outputs) = (0, 0);
    let mut at = 0;
    let length = |b: u8, bits: u8| (usize::from(b & bits) + 1) * if b & 0x40 != 0 { 2 } else { 1 };
    while at < config.len() {
        let id = config[at];
        at += 1;
        if id & 0x30 != 0 {
            // general format: direction in bits 4 and 5, length in the low four bits
            let n = length(id, 0x0f);
            inputs += if id & 0x10 != 0 { n } else { 0 };
            outputs += if id & 0x20 != 0 { n } else { 0 };
        } else {
            // special format: length bytes, outputs first, then the maker's bytes
            if id & 0x80 != 0 {
                outputs += length(*config.get(at)?, 0x3f);
                at += 1;
            }
            if id & 0x40 != 0 {
                inputs += length(*config.get(at)?, 0x3f);
                at += 1;
            }
            let own = usize::from(id & 0x0f);
            at += if own == 15 { 0 } else { own };
            if at > config.len() {
                return None;
            }
        }
    }
    Some((inputs, outputs))
}

/// Code of a length of at most `n` bytes, in bytes or words, of at most `most` units; with the bytes that it covers.
fn code(rng: &mut Rng, n: usize, most: usize, large: bool) -> (u8, usize) {
    let consistent = if rng.chance(300) { 0x80 } else { 0 };
    if n >= 2 && (large || rng.chance(300)) {
        let units = if large { (n / 2).min(most) } else { rng.within(1, (n / 2).min(most)) };
        (consistent | 0x40 | (units - 1) as u8, 2 * units)
    } else {
        let units = if large { n.min(most) } else { rng.within(1, n.min(most)) };
        (consistent | (units - 1) as u8, units)
    }
}

/// A configuration for these images; `full` makes it 244 bytes long.
pub fn config(rng: &mut Rng, inputs: usize, outputs: usize, full: bool) -> Vec<u8> {
    let mut c = Vec::new();
    let (mut i, mut q) = (inputs, outputs);
    while i + q > 0 {
        let large = c.len() > 120 || rng.chance(500);
        let both = i > 0 && q > 0 && rng.chance(300);
        if rng.chance(850) {
            let n = if both {
                i.min(q)
            } else if q == 0 || i > 0 && rng.chance(500) {
                i
            } else {
                q
            };
            let (length, covers) = code(rng, n, 16, large);
            let direction = if both {
                0x30
            } else if n == i && i > 0 && (q == 0 || n != q || rng.chance(500)) {
                0x10
            } else {
                0x20
            };
            c.push(length | direction);
            i -= if direction & 0x10 != 0 { covers } else { 0 };
            q -= if direction & 0x20 != 0 { covers } else { 0 };
        } else {
            let own = if c.len() < 100 && rng.chance(300) { rng.below(16) } else { 0 };
            let header = c.len();
            c.push(own as u8);
            if q > 0 {
                let (length, covers) = code(rng, q, 64, large);
                c[header] |= 0x80;
                c.push(length);
                q -= covers;
            }
            if i > 0 && rng.chance(700) {
                let (length, covers) = code(rng, i, 64, large);
                c[header] |= 0x40;
                c.push(length);
                i -= covers;
            }
            for _ in 0..if own == 15 { 0 } else { own } {
                c.push(rng.byte());
            }
        }
    }
    while full && c.len() < 244 {
        // empty places with the maker's bytes
        let own = (244 - c.len() - 1).min(rng.below(15));
        c.push(own as u8);
        for _ in 0..own {
            c.push(rng.byte());
        }
    }
    assert!(c.len() <= 244 && totals(&c) == Some((inputs, outputs)));
    c
}
