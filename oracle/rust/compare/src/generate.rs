//! Random scripts in the domain of the comparison. A script has a kind (plain or marked), a theme that says what it is
//! after, and then draws call after call, steered by what the unit looks like.
use crate::classes::STATUSES;
use crate::config;
use crate::rng::Rng;
use crate::script::{Balance, Master, Reply, Script, Visit};
use oracle::unit::{Request, View};

#[derive(Clone, Copy, PartialEq, Eq)]
pub enum Size {
    Full,
    /// Short scripts with small images, for the stored list.
    Small,
    /// As `Full`, with what stands outside the domain and the original can be asked: Stop, Clear, and a wish while data is asked.
    Wide,
}

/// The kind of scripts that stands apart: some calls in them may be answered otherwise one day.
#[derive(Clone, Copy, PartialEq, Eq)]
pub enum Marked {
    None,
    /// As often as they come.
    Some,
    /// Configuration bytes that do not add up to the lengths of the images.
    OtherConfig,
}

const PLAIN: usize = 0;
const OTHER_CONFIG: usize = 1;

#[derive(Clone, Copy, PartialEq, Eq)]
enum Theme {
    Mixed,
    /// A balance is left silent past the limit.
    Silence,
    /// Replies that leave the count.
    WrongReplies,
    /// Wishes and diagnoses.
    Diagnoses,
    /// Adds in between.
    Growing,
    /// Turns around 50 slot times.
    Times,
}

struct Run<'s> {
    s: &'s mut Script,
    rng: Rng,
    theme: Theme,
    small: bool,
    wide: bool,
    own: u8,
    /// balances that are still to be added, last first
    waiting: Vec<Balance>,
    /// per thousand: a request is answered at all; the answer is the one that leads on
    answers: usize,
    leads_on: usize,
    /// does not answer for a while
    mute: [bool; 32],
}

/// Script `k` of the run with this seed.
pub fn script(s: &mut Script, seed: u64, k: u64, size: Size, marked: Marked) {
    let mut rng = Rng::new(seed, k);
    let small = size == Size::Small;
    let kind = match (marked, rng.below(100)) {
        (Marked::Some, 0..=2) | (Marked::OtherConfig, _) => OTHER_CONFIG,
        _ => PLAIN,
    };
    let theme = match rng.below(100) {
        0..=8 => Theme::Silence,
        9..=24 => Theme::WrongReplies,
        25..=39 => Theme::Diagnoses,
        40..=49 => Theme::Growing,
        50..=59 => Theme::Times,
        _ => Theme::Mixed,
    };
    let retry = limit(&mut rng, theme, small);
    let slot_time = match rng.below(10) {
        0 => 1,
        1 => 1_000_000,
        2 => rng.within(1, 1_000_000),
        3 => rng.within(1, 20),
        _ => rng.pick(&[100, 200, 300, 1000]),
    };
    let own = match rng.below(10) {
        0 => 0,
        1 => 125,
        2..=5 => 2,
        _ => rng.below(126) as u8,
    };
    let count = match (theme, rng.below(10)) {
        (Theme::Silence, 0..=6) => rng.within(1, 3),
        (Theme::Silence, 7..=8) if !small || rng.chance(50) => 32,
        (_, 0..=3) => rng.within(1, 4),
        (_, 4..=6) if !small => rng.within(1, 16),
        (_, _) if !small => rng.within(12, 32),
        (_, 9) if rng.chance(500) => rng.within(4, 32),
        _ => rng.within(1, 3),
    };
    let mut waiting: Vec<Balance> = Vec::new();
    let extremes = rng.below(10);
    for _ in 0..count {
        let b = balance(&mut rng, kind, own, &waiting, extremes, small);
        waiting.push(b);
    }
    let mut pools = [0; 4];
    for b in &waiting {
        for (p, n) in pools.iter_mut().zip(b.needs()) {
            *p += n;
        }
    }
    if rng.chance(500) {
        for p in pools.iter_mut() {
            *p = rng.within(*p, 16_384);
        }
    }
    waiting.reverse();
    s.now = match rng.below(20) {
        0 => (1 << 63) - 1 - rng.below(2_000_000_000) as u64,
        1 => rng.next() >> 2,
        2..=5 => rng.below(1_000_000) as u64,
        _ => 0,
    };
    s.create(&Master {
        own,
        retry,
        slot_time: slot_time as u32,
        watchdog: rng.chance(500).then(|| (rng.byte(), rng.byte())),
        tsdr: rng.byte(),
        pools,
    });
    let first = match theme {
        Theme::Growing => 1,
        _ if rng.chance(700) => waiting.len(),
        _ => rng.within(1, waiting.len()),
    };
    let early = rng.within(0, first);
    let length = match (small, theme) {
        (true, _) => rng.within(8, 40),
        (false, Theme::Silence) => rng.within(30, 90),
        (false, _) if rng.chance(30) => 100 + 12 * count,
        (false, _) => rng.within(40, 220) + rng.within(0, 4) * count,
    };
    let answers = rng.pick(&[600, 800, 900, 950]);
    let leads_on = rng.pick(&[300, 500, 700, 850, 950]);
    let mut one =
        Run { s, rng, theme, small, wide: size == Size::Wide, own, waiting, answers, leads_on, mute: [false; 32] };
    for _ in 0..early {
        one.add();
    }
    one.enter();
    for _ in early..first {
        one.add();
    }
    one.run(length);
    one.s.finish(kind);
}

fn limit(rng: &mut Rng, theme: Theme, small: bool) -> u8 {
    let n = match (theme, rng.below(100)) {
        (Theme::Silence, n) if small => match n {
            0..=89 => rng.within(0, 6),
            90..=94 => rng.within(10, 14),
            95..=96 => 50,
            97..=98 => 200,
            _ => 254,
        },
        (Theme::Silence, n) => match n {
            0..=9 => 254,
            10..=24 => rng.within(200, 253),
            25..=39 => rng.within(50, 199),
            40..=69 => rng.within(10, 49),
            _ => rng.within(0, 9),
        },
        (_, 0..=19) => 0,
        (_, 20..=49) => 1,
        (_, 50..=79) => rng.within(2, 4),
        (_, 80..=94) => rng.within(5, 20),
        _ => rng.within(0, 254),
    };
    n as u8
}

/// A length of an image or a room, `most` at the longest.
fn length(rng: &mut Rng, extremes: usize, most: usize, small: bool) -> usize {
    let n = if small && !rng.chance(50) { 21 + rng.below(79) } else { rng.below(100) };
    match (n, extremes) {
        (0..=2, _) => most,
        (3..=5, _) => most - 1,
        (6..=20, 0..=1) => rng.within(0, most),
        (_, 2) if !small => rng.pick(&[0, 1, most - 1, most]),
        (21..=45, _) => 0,
        (46..=60, _) => 1,
        _ => rng.within(2, 9),
    }
}

/// Any address that neither the master nor another balance has.
fn address(rng: &mut Rng, own: u8, others: &[Balance]) -> u8 {
    loop {
        let a = match rng.below(12) {
            0 => 0,
            1 => 125,
            _ => rng.below(126) as u8,
        };
        if a != own && others.iter().all(|b| b.addr != a) {
            return a;
        }
    }
}

fn balance(rng: &mut Rng, kind: usize, own: u8, others: &[Balance], extremes: usize, small: bool) -> Balance {
    let (mut inputs, mut outputs) = (length(rng, extremes, 244, small), length(rng, extremes, 244, small));
    let user = match rng.below(if small { 60 } else { 40 }) {
        0 => None,
        1..=3 => Some(0),
        4 => Some(237),
        5 if !small => Some(rng.below(238)),
        _ => Some(rng.within(1, 6)),
    };
    let other = kind == OTHER_CONFIG && rng.chance(700);
    let config = match rng.below(if small { 60 } else { 40 }) {
        0 => None,
        1..=2 if other => Some(Vec::new()),
        1..=2 => {
            (inputs, outputs) = (0, 0);
            Some(Vec::new())
        }
        3 if other => Some(rng.bytes(244)),
        3 => Some(config::config(rng, inputs, outputs, true)),
        _ if other => {
            let n = rng.within(1, 10);
            Some(rng.bytes(n))
        }
        _ => Some(config::config(rng, inputs, outputs, false)),
    };
    let user = user.map(|n| rng.bytes(n));
    let bits = rng.byte();
    Balance {
        addr: address(rng, own, others),
        ident: rng.next() as u16,
        sync: bits & 1 != 0,
        freeze: bits & 2 != 0,
        groups: rng.byte(),
        fail_safe: bits & 4 != 0,
        user,
        config,
        inputs,
        outputs,
        room: length(rng, extremes, 238, small),
    }
}

/// Whether a reply to this request of this balance leaves its count as it is.
fn leaves_count(v: &View, request: Request, r: &Reply) -> bool {
    match request {
        Request::Diagnosis => v.state != 3 && !r.taken(),
        Request::Parameters | Request::Configuration => r.status.is_some(),
        Request::Data => false,
    }
}

impl Run<'_> {
    fn add(&mut self) {
        if let Some(mut b) = self.waiting.pop() {
            // a reset may have taken its address meanwhile
            let taken = (0..self.s.count()).any(|k| self.s.balance(k).addr == b.addr);
            if taken {
                b.addr = self.free_address();
            }
            self.s.add(b);
        }
    }

    fn free_address(&mut self) -> u8 {
        let mut others: Vec<Balance> = (0..self.s.count()).map(|k| self.s.balance(k).clone()).collect();
        others.extend(self.waiting.iter().cloned());
        address(&mut self.rng, self.own, &others)
    }

    fn run(&mut self, length: usize) {
        let end = self.s.calls + length as u64;
        while self.s.calls < end {
            self.step();
        }
        if self.theme == Theme::Silence {
            self.leave_silent();
        }
        self.last_look();
    }

    fn step(&mut self) {
        if self.rng.chance(8) && self.s.count() > 0 {
            let slot = self.slot();
            self.mute[slot] = self.rng.chance(600);
        }
        let aside = match self.theme {
            Theme::Diagnoses => 220,
            _ => 120,
        };
        if self.rng.chance(aside) {
            return self.aside();
        }
        match self.s.open() {
            Some(o) if o.request == Request::Data && self.wishes(o.slot) => {
                if !self.wide {
                    // the wish comes right after the reply
                    self.answer();
                    return self.s.wish(o.slot);
                }
                // the wish comes while data is asked
                self.s.wish(o.slot);
                if self.rng.chance(900) {
                    let v = self.s.unit().view(o.slot);
                    let r = self.any(&v);
                    self.reply(r)
                }
            }
            Some(o) if !self.mute[o.slot] && self.rng.chance(self.answers) => self.answer(),
            _ => self.turn(),
        }
    }

    fn wishes(&mut self, slot: usize) -> bool {
        let pre = self.s.unit().view(slot).state == 4;
        let n = if self.theme == Theme::Diagnoses { 200 } else { 80 };
        // a wide run is after such wishes
        let n = if self.wide { 3 * n } else { n };
        self.rng.chance(if pre { 2 * n } else { n })
    }

    /// A wish that leaves the script in the domain, where it has to stay there.
    fn may_wish(&mut self, slot: usize) -> bool {
        self.wide || !self.s.asks_data(slot)
    }

    fn slot(&mut self) -> usize {
        // often the balance with the open request, or the next one
        match self.s.open() {
            Some(o) if self.rng.chance(400) => o.slot,
            _ => self.rng.below(self.s.count()),
        }
    }

    /// A call that is neither turn nor reply.
    fn aside(&mut self) {
        let slot = self.slot();
        let adds = if self.theme == Theme::Growing { 300 } else { 60 };
        let n = self.rng.below(1000);
        if n < adds && !self.waiting.is_empty() {
            return self.add();
        }
        match self.rng.below(100) {
            0..=27 if self.may_wish(slot) => self.s.wish(slot),
            28..=35 => self.reset(slot),
            36..=41 => self.enter(),
            42..=57 => {
                let n = self.s.balance(slot).outputs;
                let data = self.rng.bytes(n);
                self.s.write(slot, &data)
            }
            58..=67 => self.s.inputs(slot),
            68..=75 => self.s.outputs(slot),
            76..=88 => self.s.diagnosis(slot),
            98..=99 if self.rng.chance(250) => self.s.dump(),
            _ => self.s.listing(),
        }
    }

    fn enter(&mut self) {
        match self.rng.below(5) {
            n @ 0..=1 if self.wide => self.s.enter(n as u8),
            _ => self.s.operate(),
        }
    }

    fn reset(&mut self, slot: usize) {
        let new = if self.rng.chance(200) { self.s.balance(slot).addr } else { self.free_address() };
        self.s.reset(slot, new);
        self.mute[slot] = self.rng.chance(100);
    }

    fn time(&mut self) -> u64 {
        const LAST: u64 = (1 << 63) - 1;
        let now = self.s.now;
        let slot_time = self.s.unit().parameters().slot_time_us;
        let edge = if self.theme == Theme::Times { 400 } else { 40 };
        if self.rng.chance(edge) {
            if let Some(g) = self.s.unit().last_control() {
                let t = g + slot_time * 50 + self.rng.below(3) as u64 - 1;
                if t >= now {
                    return t.min(LAST);
                }
            }
        }
        let step = match self.rng.below(100) {
            0..=9 => 0,
            10..=84 => self.rng.below(slot_time as usize + 1) as u64,
            85..=96 => self.rng.below(5 * slot_time as usize + 1) as u64,
            97..=98 => self.rng.below(100 * slot_time as usize + 1) as u64,
            _ => 50 * slot_time,
        };
        (now + step).min(LAST)
    }

    fn turn(&mut self) {
        let now = self.time();
        let high_prio = self.rng.chance(if self.theme == Theme::Times { 300 } else { 150 });
        self.turn_at(now, high_prio)
    }

    fn turn_at(&mut self, now: u64, high_prio: bool) {
        let plan = self.s.plan(now, high_prio);
        if plan.falls() < 2 {
            return self.s.turn(now, high_prio);
        }
        // Two Offline in a turn stand outside the domain: one of the balances is answered or reset instead.
        if self.s.open().is_some() && self.rng.chance(500) {
            let r = self.right();
            return self.s.reply(&r);
        }
        let falling: Vec<usize> = plan.visits.iter().filter(|v| v.2 == Visit::Falls).map(|v| v.0).collect();
        let slot = self.rng.pick(&falling);
        self.reset(slot);
    }

    fn answer(&mut self) {
        let o = self.s.open().unwrap();
        let v = self.s.unit().view(o.slot);
        let leads_on = match self.theme {
            Theme::WrongReplies => self.leads_on / 2,
            _ => self.leads_on,
        };
        let r = if self.rng.chance(leads_on) { self.right() } else { self.any(&v) };
        self.reply(r)
    }

    /// Answers with `r`, mostly not where another count above the limit would make two Offline in a turn.
    fn reply(&mut self, r: Reply) {
        let o = self.s.open().unwrap();
        let (n, limit) = (self.s.count(), self.s.limit());
        let v = self.s.unit().view(o.slot);
        if v.count > limit
            && leaves_count(&v, o.request, &r)
            && self.rng.chance(900)
            && (0..n).any(|k| k != o.slot && self.s.unit().view(k).count > limit)
        {
            let r = self.right();
            return self.s.reply(&r);
        }
        self.s.reply(&r)
    }

    /// The reply that a sound balance gives.
    fn right(&mut self) -> Reply {
        let o = self.s.open().unwrap();
        let v = self.s.unit().view(o.slot);
        match o.request {
            Request::Parameters | Request::Configuration => Reply::confirmation(),
            Request::Data if v.inputs == 0 && self.rng.chance(500) => Reply::confirmation(),
            Request::Data => {
                let status = match self.rng.below(20) {
                    0 => 10,
                    1..=3 => 0,
                    _ => 8,
                };
                Reply::data(status, self.rng.bytes(v.inputs))
            }
            Request::Diagnosis => self.sound_diagnosis(v.state == 3, v.room),
        }
    }

    fn sound_diagnosis(&mut self, clean: bool, room: usize) -> Reply {
        let mut flags = 0x0400 | self.rng.pick(&[0, 0x0800, 0x0800, 0x0200, 0x3000]);
        if !clean && self.rng.chance(300) {
            flags |= self.rng.pick(&[0x0002, 0x0100, 0x0102, 0x0004, 0x0040]);
        }
        let mut part = 0;
        if self.rng.chance(300) {
            flags |= 0x0008;
            part = self.rng.within(0, room);
        }
        self.diagnosis(flags, part)
    }

    fn diagnosis(&mut self, flags: u16, part: usize) -> Reply {
        let mut p = flags.to_le_bytes().to_vec();
        p.push(if self.rng.chance(900) { 0 } else { self.rng.byte() });
        p.push(match self.rng.below(4) {
            0 => 255,
            1 => self.rng.byte(),
            _ => self.own,
        });
        let rest = self.rng.bytes(2 + part);
        p.extend(rest);
        let status = if self.rng.chance(700) { 8 } else { self.rng.pick(&STATUSES) };
        Reply::diagnosis(status, p)
    }

    /// Any reply of the domain, each class about as often as another.
    fn any(&mut self, v: &View) -> Reply {
        match self.rng.below(100) {
            0..=11 => Reply::confirmation(),
            12..=61 => {
                let status = self.rng.pick(&STATUSES);
                let n = self.data_length(v.inputs);
                Reply::data(status, self.rng.bytes(n))
            }
            62..=88 => {
                let mut flags = match self.rng.below(4) {
                    0 => 0x0400,
                    1 => self.rng.next() as u16 & !0x0146 | self.rng.pick(&[0, 0x0002]),
                    2 => self.rng.next() as u16,
                    _ => 0x0400 | self.rng.next() as u16 & 0x0146,
                };
                let mut part = self.rng.pick(&[0, 0, 1, 2]);
                if self.rng.chance(600) {
                    flags |= 0x0008;
                    part = self.part_length(v.room);
                }
                let mut r = self.diagnosis(flags, part);
                r.status = Some(self.rng.pick(&STATUSES));
                // now and then exactly as long as the input image
                if v.inputs >= 6 && self.rng.chance(200) {
                    r.payload.resize(v.inputs, 0);
                }
                r
            }
            89..=92 => {
                let n = self.rng.below(6);
                Reply::diagnosis(self.rng.pick(&STATUSES), self.rng.bytes(n))
            }
            _ => {
                let flags = self.rng.next() as u16;
                let mut r = self.diagnosis(flags, 2);
                let other = match self.rng.below(4) {
                    0 => 255,
                    1 => self.rng.pick(&[59, 61, 63, 0]),
                    _ => self.rng.byte(),
                };
                r.saps = match self.rng.below(6) {
                    0 => (60, 62),
                    1 => (other, 60),
                    2..=4 => (62, other),
                    _ => (self.rng.byte(), self.rng.byte()),
                };
                r
            }
        }
    }

    fn data_length(&mut self, right: usize) -> usize {
        match self.rng.below(10) {
            0..=3 => right,
            4..=6 => right.saturating_sub(1),
            7 => right + 1,
            8 => self.rng.below(right + 1),
            _ if self.small => right + 2,
            _ => self.rng.within(right, 246),
        }
    }

    fn part_length(&mut self, room: usize) -> usize {
        match self.rng.below(10) {
            0 => 0,
            1..=2 => room,
            3..=5 => room + 1,
            6..=7 if room > 1 => self.rng.within(1, room - 1),
            _ if self.small => (room + 3).min(240),
            _ => self.rng.within(room, 240),
        }
    }

    /// Leaves a balance silent from some state on until it is reported Offline.
    fn leave_silent(&mut self) {
        let n = self.s.count();
        let limit = usize::from(self.s.limit());
        let wanted = self.rng.below(6) as u8;
        // among many often the last one, in whatever state
        let last = n > 3 && self.rng.chance(700);
        for _ in 0..if last { 6 * n } else { 40 } {
            match self.s.open() {
                // in Offline one silent turn is not enough to be reported, but where the limit is 0
                Some(o) if last && o.slot + 1 == n && (limit == 0 || self.s.unit().view(o.slot).state > 0) => break,
                Some(o) if !last && self.s.unit().view(o.slot).state == wanted => break,
                Some(_) => {
                    let r = self.right();
                    self.s.reply(&r)
                }
                None => {
                    let now = self.time();
                    self.turn_at(now, true)
                }
            }
        }
        for _ in 0..2 * (limit + n) + 10 {
            let now = self.time();
            let plan = self.s.plan(now, true);
            let fell = plan.falls() > 0;
            let high_prio = self.rng.chance(700);
            self.turn_at(now, high_prio);
            if fell && high_prio {
                break;
            }
            if self.rng.chance(20) {
                let slot = self.rng.below(n);
                match self.rng.below(3) {
                    0 if self.may_wish(slot) => self.s.wish(slot),
                    1 => self.s.inputs(slot),
                    _ => self.s.listing(),
                }
            }
        }
    }

    /// At the end everything that can be read is read, in every other script by a dump.
    fn last_look(&mut self) {
        if self.rng.chance(500) {
            return self.s.dump();
        }
        for slot in 0..self.s.count() {
            if self.s.count() < 4 || self.rng.chance(200) {
                self.s.inputs(slot);
                self.s.diagnosis(slot);
            }
        }
        self.s.listing();
    }
}
