//! The exhaustive part: every class of reply in every state, with the unit dumped after each; then all flag words, all
//! pairs of service access points, and all lengths with all statuses. Outside the domain: every class of reply where the wish
//! came while data was asked.
use crate::classes::{ARRIVALS, LATE, STATUSES};
use crate::config;
use crate::rng::Rng;
use crate::script::{arrival, Balance, Master, Reply, Script};
use std::ops::Range;

/// Inputs, outputs, room, retry limit, and silent turns before the reply.
const SHAPES: [(usize, usize, usize, u8, usize); 6] =
    [(0, 0, 0, 0, 0), (1, 1, 1, 1, 1), (7, 3, 9, 2, 0), (7, 3, 9, 2, 2), (244, 244, 238, 254, 0), (243, 0, 8, 3, 1)];

fn payload(rng: &mut Rng, flags: u16, part: usize) -> Vec<u8> {
    let mut p = flags.to_le_bytes().to_vec();
    p.extend(rng.bytes(4 + part));
    p
}

/// Every class of reply for a balance of this shape.
fn replies(rng: &mut Rng, inputs: usize, room: usize) -> Vec<Reply> {
    let mut all = vec![Reply::confirmation()];
    for status in STATUSES {
        for n in [inputs, inputs.saturating_sub(1), inputs + 1, 0, 246] {
            all.push(Reply::data(status, rng.bytes(n)));
        }
        all.push(Reply::diagnosis(status, payload(rng, 0x0400, 0)));
    }
    for faults in 0..16u16 {
        let flags = [0x40, 0x04, 0x100, 0x02].iter().enumerate().map(|(k, f)| (faults >> k & 1) * f).sum::<u16>();
        all.push(Reply::diagnosis(8, payload(rng, 0x0400 | flags, 0)));
    }
    for base in [0x0400, 0x0002, 0x0040] {
        for part in [0, 1, room.saturating_sub(1), room, room + 1, 240] {
            for flag in [0, 8] {
                all.push(Reply::diagnosis(8, payload(rng, base | flag, part)));
            }
        }
    }
    for n in 0..6 {
        all.push(Reply::diagnosis(8, rng.bytes(n)));
    }
    for saps in [(60, 62), (62, 61), (63, 60), (62, 255), (255, 60), (255, 255), (62, 62), (60, 60), (0, 0)] {
        all.push(Reply { saps, ..Reply::diagnosis(8, payload(rng, 0x0400, 1)) });
    }
    all
}

fn right(rng: &mut Rng, at: usize, inputs: usize) -> Reply {
    match at {
        1 | 2 => Reply::confirmation(),
        4 | 6 => Reply::data(8, rng.bytes(inputs)),
        _ => Reply::diagnosis(8, payload(rng, 0x0400, 0)),
    }
}

fn balance(rng: &mut Rng, addr: u8, inputs: usize, outputs: usize, room: usize) -> Balance {
    Balance {
        addr,
        ident: 0x1234,
        user: Some(rng.bytes(3)),
        config: Some(config::config(rng, inputs, outputs, false)),
        inputs,
        outputs,
        room,
        ..Balance::default()
    }
}

fn start(s: &mut Script, retry: u8, balances: &[Balance]) {
    // some bytes behind the last range: what is stored past it shows in the dumps
    let mut pools = [300; 4];
    for b in balances {
        for (p, n) in pools.iter_mut().zip(b.needs()) {
            *p += n;
        }
    }
    s.now = 0;
    s.create(&Master { own: 2, retry, slot_time: 200, watchdog: Some((2, 5)), tsdr: 11, pools });
    for b in balances {
        s.add(b.clone());
    }
    s.operate();
    s.turn(0, false);
}

fn turn(s: &mut Script) {
    let now = s.now + 10;
    s.turn(now, true);
}

/// Turns and right replies until slot 0 is asked in this state of arrival.
fn drive(s: &mut Script, rng: &mut Rng, wanted: usize) {
    for _ in 0..200 {
        let Some(o) = s.open() else {
            // diagnosis due: the wish comes before it is asked
            let v = s.unit().view(0);
            if !v.due && (wanted == 5 && v.state == 4 || wanted == 7 && v.state == 5) {
                s.wish(0);
            }
            turn(s);
            continue;
        };
        let v = s.unit().view(o.slot);
        let at = arrival(&v, o.request);
        if o.slot == 0 && (wanted == 8 && at == 4 || wanted == 9 && at == 6) {
            // the wish comes while data is asked
            s.wish(0);
            return;
        }
        if o.slot == 0 && at == wanted {
            return;
        }
        let r = right(rng, at, v.inputs);
        s.reply(&r);
    }
    panic!("state {wanted} was not reached");
}

/// One reply in one state.
fn one(s: &mut Script, rng: &mut Rng, shape: (usize, usize, usize, u8, usize), at: usize, r: &Reply, beside: usize) {
    let (inputs, outputs, room, retry, silent) = shape;
    let mut first = balance(rng, 5, inputs, outputs, room);
    (first.sync, first.freeze, first.groups) = (at % 2 == 0, at % 3 == 0, at as u8);
    let mut balances = vec![first];
    for k in 0..beside {
        balances.push(balance(rng, 10 + k as u8, 1, 1, 0));
    }
    start(s, retry, &balances);
    if outputs > 0 {
        let data = rng.bytes(outputs);
        s.write(0, &data);
    }
    drive(s, rng, at);
    // silent turns before the reply; in Offline, and after a wish that came late, another request would be asked
    if at != 0 && at < ARRIVALS.len() {
        for _ in 0..silent {
            turn(s);
        }
    }
    assert!(arrival(&s.unit().view(0), s.open().unwrap().request) == at);
    s.dump();
    s.reply(r);
    s.dump();
    s.listing();
    for _ in 0..4 {
        turn(s);
    }
    s.dump();
    s.diagnosis(0);
    s.inputs(0);
    s.listing();
    s.finish(0);
}

/// Every class of reply in these states of arrival, for every shape.
fn every_reply(s: &mut Script, states: Range<usize>, done: &mut impl FnMut(&mut Script) -> bool) {
    let mut rng = Rng::new(1, 1);
    for (k, shape) in SHAPES.into_iter().enumerate() {
        for at in states.clone() {
            for r in replies(&mut rng, shape.0, shape.2) {
                one(s, &mut rng, shape, at, &r, k % 2);
                if !done(s) {
                    return;
                }
            }
        }
    }
}

/// What stands outside the domain, handed on as `all`.
pub fn late(s: &mut Script, mut done: impl FnMut(&mut Script) -> bool) {
    every_reply(s, ARRIVALS.len()..ARRIVALS.len() + LATE.len(), &mut done);
}

/// All of it, handed on script by script while `done` says to go on.
pub fn all(s: &mut Script, mut done: impl FnMut(&mut Script) -> bool) {
    every_reply(s, 0..ARRIVALS.len(), &mut done);
    flag_words(s, &mut done);
    access_points(s, &mut done);
    lengths(s, &mut done);
}

/// Every flag word in ValidateConfig, and what is held of it.
fn flag_words(s: &mut Script, done: &mut impl FnMut(&mut Script) -> bool) {
    let mut rng = Rng::new(1, 2);
    for high in 0..256u16 {
        let b = balance(&mut rng, 5, 1, 1, 4);
        start(s, 1, &[b]);
        for low in 0..256u16 {
            drive(s, &mut rng, 3);
            let part = rng.within(0, 5);
            let r = Reply::diagnosis(8, payload(&mut rng, high << 8 | low, part));
            s.reply(&r);
            s.diagnosis(0);
            // from the exchange states back by status 3
            if s.unit().view(0).state >= 4 {
                drive(s, &mut rng, 4);
                s.reply(&Reply::data(3, Vec::new()));
            }
        }
        s.dump();
        s.finish(0);
        if !done(s) {
            return;
        }
    }
}

/// Every pair of service access points, in Offline.
fn access_points(s: &mut Script, done: &mut impl FnMut(&mut Script) -> bool) {
    let mut rng = Rng::new(1, 3);
    for dsap in 0..=255u8 {
        let b = balance(&mut rng, 5, 1, 1, 4);
        start(s, 2, &[b]);
        for ssap in 0..=255u8 {
            if s.unit().view(0).state != 0 {
                s.reset(0, 5);
            }
            drive(s, &mut rng, 0);
            let r = Reply { saps: (dsap, ssap), ..Reply::diagnosis(8, payload(&mut rng, 0x0400, 0)) };
            s.reply(&r);
        }
        s.dump();
        s.finish(0);
        if !done(s) {
            return;
        }
    }
}

/// Every length of a reply with every status, in DataExchange, for several images.
fn lengths(s: &mut Script, done: &mut impl FnMut(&mut Script) -> bool) {
    let mut rng = Rng::new(1, 4);
    for inputs in [0, 1, 2, 6, 100, 243, 244] {
        for status in STATUSES {
            let b = balance(&mut rng, 5, inputs, 2, 0);
            start(s, 1, &[b]);
            for n in 0..=246 {
                drive(s, &mut rng, 6);
                let r = Reply::data(status, rng.bytes(n));
                s.reply(&r);
                s.inputs(0);
            }
            s.dump();
            s.finish(0);
            if !done(s) {
                return;
            }
        }
    }
}
