//! A script in the making: each call is put to the oracle at once, its line and the answer are kept, and the classes
//! that it reaches are counted. What a turn will do is worked out beforehand by the visit rules of docs/01-scope.md,
//! so that a script can stay in the domain (one Offline at most in a turn), and held to what the oracle answers, as are the
//! frame bit and the length of the payload.
use crate::classes::{Classes, Group, ARRIVALS, STATUSES};
use oracle::unit::{Open, Request, Unit, View};
use oracle::Driver;

#[derive(Clone, Default)]
pub struct Balance {
    pub addr: u8,
    pub ident: u16,
    pub sync: bool,
    pub freeze: bool,
    pub groups: u8,
    pub fail_safe: bool,
    pub user: Option<Vec<u8>>,
    pub config: Option<Vec<u8>>,
    pub inputs: usize,
    pub outputs: usize,
    pub room: usize,
}

impl Balance {
    pub fn needs(&self) -> [usize; 4] {
        let setup = self.user.as_ref().map_or(0, Vec::len) + self.config.as_ref().map_or(0, Vec::len);
        [setup, self.inputs, self.outputs, self.room]
    }
}

pub struct Master {
    pub own: u8,
    pub retry: u8,
    pub slot_time: u32,
    pub watchdog: Option<(u8, u8)>,
    pub tsdr: u8,
    pub pools: [usize; 4],
}

/// A reply; no status is a short confirmation.
#[derive(Clone)]
pub struct Reply {
    pub saps: (u8, u8),
    pub status: Option<u8>,
    pub payload: Vec<u8>,
}

impl Reply {
    pub fn confirmation() -> Reply {
        Reply { saps: (255, 255), status: None, payload: Vec::new() }
    }

    pub fn data(status: u8, payload: Vec<u8>) -> Reply {
        Reply { saps: (255, 255), status: Some(status), payload }
    }

    pub fn diagnosis(status: u8, payload: Vec<u8>) -> Reply {
        Reply { saps: (62, 60), status: Some(status), payload }
    }

    /// Whether it is a diagnosis by the rules of 01.
    pub fn taken(&self) -> bool {
        self.status.is_some() && self.saps == (62, 60) && self.payload.len() >= 6
    }

    pub fn flags(&self) -> u16 {
        u16::from_le_bytes([self.payload[0], self.payload[1]])
    }
}

/// What a visit does.
#[derive(Clone, Copy, PartialEq, Eq, Debug)]
pub enum Visit {
    Falls,
    Skipped,
    Sends(Request),
}

/// What a turn will do.
#[derive(Default)]
pub struct Plan {
    pub stop: bool,
    pub control: bool,
    pub back: bool,
    pub visits: Vec<(usize, u8, Visit)>,
}

impl Plan {
    pub fn falls(&self) -> usize {
        self.visits.iter().filter(|v| v.2 == Visit::Falls).count()
    }
}

fn visit(v: &View, limit: u8) -> Visit {
    if v.count > limit {
        return Visit::Falls;
    }
    match v.state {
        0 if v.count == 0 => Visit::Sends(Request::Diagnosis),
        0 => Visit::Skipped,
        1 if v.user.is_none() => Visit::Skipped,
        1 => Visit::Sends(Request::Parameters),
        2 if v.config.is_none() => Visit::Skipped,
        2 => Visit::Sends(Request::Configuration),
        3 => Visit::Sends(Request::Diagnosis),
        _ if v.due => Visit::Sends(Request::Diagnosis),
        _ => Visit::Sends(Request::Data),
    }
}

fn visit_class(state: u8, visit: Visit) -> usize {
    match (state, visit) {
        (0, Visit::Sends(_)) => 0,
        (0, Visit::Skipped) => 1,
        (0, Visit::Falls) => 2,
        (1, Visit::Sends(_)) => 3,
        (1, Visit::Skipped) => 4,
        (1, Visit::Falls) => 5,
        (2, Visit::Sends(_)) => 6,
        (2, Visit::Skipped) => 7,
        (2, Visit::Falls) => 8,
        (3, Visit::Falls) => 10,
        (3, _) => 9,
        (_, Visit::Sends(Request::Diagnosis)) => 11,
        (_, Visit::Falls) => 13,
        _ => 12,
    }
}

/// The state of a balance at the arrival of a reply: a number of `classes::ARRIVALS`, and then of `classes::LATE`.
pub fn arrival(v: &View, request: Request) -> usize {
    match (v.state, request, v.due) {
        (s @ 0..=3, _, _) => usize::from(s),
        (s, Request::Data, false) => 4 + 2 * usize::from(s - 4),
        (s, Request::Data, true) => ARRIVALS.len() + usize::from(s - 4),
        (s, _, _) => 5 + 2 * usize::from(s - 4),
    }
}

pub struct Script {
    driver: Driver,
    pub text: Vec<u8>,
    pub answers: Vec<u8>,
    pub calls: u64,
    pub classes: Classes,
    pub now: u64,
    /// operating state
    state: u8,
    limit: u8,
    turns: u64,
    balances: Vec<Balance>,
    /// silent turns in a row, by slot; a reply ends the row
    silent: [u32; 32],
    /// the last fall since adding or a reset, by slot: 0 Offline, 1 ParameterError, 2 ConfigError
    fallen: [Option<usize>; 32],
    /// replies that cycled the frame bit since the last fall, by slot
    cycled: [u32; 32],
    /// the open request is one for data that was sent in Clear
    clear: bool,
    long_silence: bool,
    watchdog: bool,
}

impl Script {
    /// `wide`: Stop and Clear may be entered too, and a wish may come while data is asked.
    pub fn new(wide: bool) -> Self {
        Script {
            driver: Driver::new(wide),
            text: Vec::new(),
            answers: Vec::new(),
            calls: 0,
            classes: Classes::new(wide),
            now: 0,
            state: 0,
            limit: 0,
            turns: 0,
            balances: Vec::new(),
            silent: [0; 32],
            fallen: [None; 32],
            cycled: [0; 32],
            clear: false,
            long_silence: false,
            watchdog: false,
        }
    }

    pub fn unit(&mut self) -> &mut Unit {
        self.driver.unit.as_mut().expect("no unit")
    }

    pub fn open(&mut self) -> Option<Open> {
        self.unit().open
    }

    /// Data is asked of this balance.
    pub fn asks_data(&mut self, slot: usize) -> bool {
        self.open().is_some_and(|o| o.slot == slot && o.request == Request::Data)
    }

    pub fn limit(&self) -> u8 {
        self.limit
    }

    pub fn balance(&self, slot: usize) -> &Balance {
        &self.balances[slot]
    }

    pub fn count(&self) -> usize {
        self.balances.len()
    }

    /// The line that begins at `at` is complete: asks the oracle, and answers the first numbers of its answer.
    fn ask(&mut self, at: usize) -> [u64; 5] {
        let start = self.answers.len();
        self.driver.answer(&self.text[at..], &mut self.answers);
        self.text.push(b'\n');
        self.calls += 1;
        let answer = &self.answers[start..];
        let mut numbers = [0; 5];
        let words = answer[..answer.len() - 1].split(|&c| c == b' ').skip(1);
        for (n, word) in numbers.iter_mut().zip(words) {
            for &c in word {
                if !c.is_ascii_digit() {
                    self.stray("an answer that is no number");
                }
                *n = *n * 10 + u64::from(c - b'0');
                if *n > u64::from(u32::MAX) {
                    break;
                }
            }
            if self.answers[start] != b'T' && self.answers[start] != b'R' {
                break;
            }
        }
        if numbers[0] != 0 {
            self.stray("a refusal");
        }
        numbers
    }

    /// A script left the domain, or the visit rules here are not the oracle's: nothing to go on with.
    fn stray(&self, why: &str) -> ! {
        eprintln!("compare: {why}; the script so far, and the last answer:");
        let begin = self.text.windows(3).rposition(|w| w == b"\nN ").map_or(0, |p| p + 1);
        eprintln!("{}", String::from_utf8_lossy(&self.text[begin..]));
        let end = self.answers.len().saturating_sub(1);
        let last = self.answers[..end].iter().rposition(|&c| c == b'\n').map_or(0, |p| p + 1);
        eprintln!("{}", String::from_utf8_lossy(&self.answers[last..]));
        std::process::exit(3)
    }

    fn begin(&mut self, letter: u8, numbers: &[u64]) -> usize {
        let at = self.text.len();
        self.text.push(letter);
        self.more(numbers);
        at
    }

    fn more(&mut self, numbers: &[u64]) {
        oracle::unit::fields(&mut self.text, numbers);
    }

    fn simple(&mut self, letter: u8, numbers: &[u64]) -> [u64; 5] {
        let at = self.begin(letter, numbers);
        self.ask(at)
    }

    pub fn create(&mut self, m: &Master) {
        let (f1, f2) = m.watchdog.unwrap_or((0, 0));
        let on = m.watchdog.is_some();
        let at = self.begin(b'N', &[m.own.into(), m.retry.into(), m.slot_time.into(), on.into()]);
        self.more(&[f1.into(), f2.into(), m.tsdr.into()]);
        self.more(&m.pools.map(|n| n as u64));
        self.ask(at);
        self.state = 0;
        self.limit = m.retry;
        self.watchdog = m.watchdog.is_some();
        self.turns = 0;
        self.balances.clear();
        self.silent = [0; 32];
        self.fallen = [None; 32];
        self.cycled = [0; 32];
        self.long_silence = false;
        match m.own {
            0 => self.classes.hit(Group::Addresses, 2),
            125 => self.classes.hit(Group::Addresses, 3),
            _ => (),
        }
    }

    /// Counts what is counted once a script.
    pub fn finish(&mut self, kind: usize) {
        self.classes.hit(Group::Kinds, kind);
        self.classes.hit(Group::Balances, self.balances.len() - 1);
        for (addr, class) in [(0, 0), (125, 1)] {
            if self.balances.iter().any(|b| b.addr == addr) {
                self.classes.hit(Group::Addresses, class);
            }
        }
        if self.long_silence {
            self.classes.hit(Group::SilentLimit, 7);
        }
    }

    pub fn add(&mut self, b: Balance) {
        let moment = if self.turns == 0 { 0 } else { self.moment() };
        let n =
            [u64::from(b.addr), b.ident.into(), b.sync.into(), b.freeze.into(), b.groups.into(), b.fail_safe.into()];
        let at = self.begin(b'A', &n);
        for s in [&b.user, &b.config] {
            match s {
                None => self.text.extend_from_slice(b" x"),
                Some(s) => oracle::unit::bytes(&mut self.text, s),
            }
        }
        self.more(&[b.inputs as u64, b.outputs as u64, b.room as u64]);
        self.ask(at);
        self.classes.hit(Group::Adds, moment);
        for (row, n, most) in [(0, b.inputs, 244), (1, b.outputs, 244), (2, b.room, 238)] {
            let class = match n {
                0 => 0,
                1 => 1,
                n if n == most - 1 => 2,
                n if n == most => 3,
                _ => 4,
            };
            self.classes.hit(Group::Images, 5 * row + class);
        }
        for (row, s, most) in [(0, &b.user, 237), (1, &b.config, 244)] {
            let class = match s.as_ref().map(Vec::len) {
                None => 0,
                Some(0) => 1,
                Some(n) if n == most => 2,
                Some(_) => 3,
            };
            self.classes.hit(Group::Setup, 4 * row + class);
        }
        self.balances.push(b);
    }

    /// 1 nothing open, 2 a request open, 3 cycle completed by a reply.
    fn moment(&mut self) -> usize {
        if self.open().is_some() {
            2
        } else if self.unit().place().is_none() {
            3
        } else {
            1
        }
    }

    pub fn operate(&mut self) {
        if self.turns > 0 {
            let class = self.moment() - 1;
            self.classes.hit(Group::OperateAgain, class);
            if self.unit().last_control().is_none() {
                self.classes.hit(Group::OperateAgain, 3);
            }
        }
        self.enter(2);
    }

    pub fn enter(&mut self, state: u8) {
        self.simple(b'S', &[state.into()]);
        self.state = state;
    }

    /// What a turn at `now` will do, by 01's rules.
    pub fn plan(&mut self, now: u64, high_prio: bool) -> Plan {
        let (limit, stop) = (self.limit, self.state == 0);
        let n = self.balances.len();
        let unit = self.unit();
        let wait = unit.parameters().slot_time_us * 50;
        let mut plan = Plan::default();
        let place = unit.place();
        if stop {
            plan.stop = true;
        } else if !high_prio && unit.last_control().is_none_or(|g| now - g >= wait) {
            plan.control = true;
        } else if let Some(place) = place {
            for slot in place..n {
                let v = unit.view(slot);
                let does = visit(&v, limit);
                plan.visits.push((slot, v.state, does));
                if matches!(does, Visit::Sends(_)) {
                    break;
                }
            }
        } else {
            plan.back = true;
        }
        plan
    }

    pub fn turn(&mut self, now: u64, high_prio: bool) {
        let plan = self.plan(now, high_prio);
        let before = self.unit().last_control();
        let wait = self.unit().parameters().slot_time_us * 50;
        if let Some(o) = self.open() {
            self.silent[o.slot] += 1;
        }
        let same_time = self.unit().last_turn == Some(now);
        let [_, completed, mask, event, slot] = self.simple(b'T', &[now, high_prio.into()]);
        self.now = now;
        self.turns += 1;
        self.check(&plan, completed == 1, mask, event, slot as usize);

        let hp = usize::from(high_prio);
        self.classes.hit(Group::TurnEvents, usize::from(event == 7));
        if let Some(g) = before {
            let class = match now - g {
                0 => 3,
                d if d + 1 == wait => 0,
                d if d == wait => 1,
                d if d == wait + 1 => 2,
                d if d < wait => 4,
                _ => 5,
            };
            self.classes.hit(Group::Times, 2 * class + hp);
        }
        if high_prio {
            let due = before.is_none_or(|g| now - g >= wait);
            self.classes.hit(Group::HighPrio, usize::from(!due));
        }
        if completed == 1 {
            self.classes.hit(Group::Cycle, 1);
        }
        if plan.back {
            self.classes.hit(Group::Cycle, 2);
        }
        if plan.control && self.turns > 1 {
            self.classes.hit(Group::Cycle, 3);
        }
        if same_time {
            self.classes.hit(Group::Cycle, 4);
        }
        if now >= 1 << 62 {
            self.classes.hit(Group::Cycle, 5);
        }
        for &(slot, state, does) in &plan.visits {
            self.classes.hit(Group::Visits, visit_class(state, does));
            match does {
                Visit::Falls => self.fell(slot, state),
                Visit::Skipped => self.silent[slot] = 0,
                Visit::Sends(_) => (),
            }
        }
        if let Some(o) = self.open() {
            self.sent(o);
        }
    }

    /// The oracle did what the plan says; otherwise one of the two is wrong.
    fn check(&mut self, plan: &Plan, completed: bool, mask: u64, event: u64, slot: usize) {
        let sends = plan.visits.last().and_then(|v| match v.2 {
            Visit::Sends(r) => Some((v.0, r)),
            _ => None,
        });
        let fall = plan.visits.iter().find(|v| v.2 == Visit::Falls).map(|v| v.0);
        let done = !plan.stop && !plan.control && !plan.back && sends.is_none();
        let right = self.open().map(|o| (o.slot, o.request)) == sends
            && completed == done
            && event == if fall.is_some() { 7 } else { 0 }
            && slot == fall.unwrap_or(255)
            && mask == fall.map_or(0, |s| 1 << s);
        if !right {
            self.stray("a turn that did not do what the rules say");
        }
    }

    fn fell(&mut self, slot: usize, state: u8) {
        let class = match slot {
            0 => 0,
            1..=15 => 1,
            16..=30 => 2,
            _ => 3,
        };
        self.classes.hit(Group::FallSlot, class);
        // all its requests unanswered: the count is the row of silent turns
        if self.silent[slot] == u32::from(self.limit) + 1 {
            let class = match self.limit {
                0 => 0,
                1 => 1,
                2..=9 => 2,
                10..=49 => 3,
                50..=199 => 4,
                200..=253 => 5,
                _ => 6,
            };
            self.classes.hit(Group::SilentLimit, class);
            self.classes.hit(Group::SilentState, state.into());
            self.classes.hit(Group::EachLimit, self.limit.into());
            self.long_silence |= self.limit >= 200;
        } else if self.silent[slot] == 0 {
            let class = usize::from(state.min(4));
            match class {
                0..=2 => self.classes.hit(Group::FallAfterReply, class),
                4 => self.classes.hit(Group::FallAfterReply, 3),
                _ => self.stray("a fall in ValidateConfig after a reply"),
            }
        }
        self.silent[slot] = 0;
        (self.fallen[slot], self.cycled[slot]) = (Some(0), 0);
    }

    fn sent(&mut self, o: Open) {
        self.check_payload(o);
        let bit = self.unit().view(o.slot).bit;
        let by_the_rules = match self.cycled[o.slot] {
            0 => 1,
            n if n % 2 == 1 => 2,
            _ => 3,
        };
        if bit != by_the_rules {
            self.stray("a frame bit that is not what the rules say");
        }
        let request = match o.request {
            Request::Diagnosis => 0,
            Request::Parameters => 1,
            Request::Configuration => 2,
            Request::Data => 3,
        };
        match bit {
            1 if request == 0 => self.classes.hit(Group::Bits, 0),
            2 | 3 => self.classes.hit(Group::Bits, 1 + 4 * usize::from(bit - 2) + request),
            _ => self.stray("a frame bit that no balance can have here"),
        }
        if let Some(fall) = self.fallen[o.slot] {
            self.classes.hit(Group::BitsAnew, 3 * fall + usize::from(bit - 1));
        }
        let b = &self.balances[o.slot];
        let (row, data, most) = match o.request {
            Request::Parameters => (0, &b.user, 237),
            Request::Configuration => (1, &b.config, 244),
            _ => return,
        };
        let class = match data.as_ref().map(Vec::len) {
            Some(0) => 0,
            Some(n) if n == most => 1,
            _ => 2,
        };
        let modes = 2 + usize::from(b.freeze) + 2 * usize::from(b.sync);
        self.classes.hit(Group::SetupSent, 3 * row + class);
        if row == 0 {
            self.classes.hit(Group::Parameters, usize::from(self.watchdog));
            self.classes.hit(Group::Parameters, modes);
        }
    }

    /// The payload of the last turn has the length that the rules say; in Clear one of data is all zeros.
    fn check_payload(&mut self, o: Open) {
        let b = &self.balances[o.slot];
        let setup = |s: &Option<Vec<u8>>| s.as_ref().map_or(0, Vec::len);
        self.clear = o.request == Request::Data && self.state == 1;
        let length = match o.request {
            Request::Diagnosis => 0,
            Request::Parameters => 7 + setup(&b.user),
            Request::Configuration => setup(&b.config),
            Request::Data if self.clear && b.fail_safe => 0,
            Request::Data => b.outputs,
        };
        let class = 2 * usize::from(!b.fail_safe) + usize::from(b.outputs > 0);
        let end = self.answers.len() - 1;
        let hex = match self.answers[..end].rsplit(|&c| c == b' ').next() {
            Some(b"-") | None => &[],
            Some(word) => word,
        };
        if hex.len() != 2 * length || self.clear && hex.iter().any(|&c| c != b'0') {
            self.stray("a payload that is not what the rules say");
        }
        if self.clear {
            self.classes.hit(Group::ClearSent, class);
        }
    }

    /// Answers the open request.
    pub fn reply(&mut self, r: &Reply) {
        let o = self.open().expect("a reply to nothing");
        let v = self.unit().view(o.slot);
        let (kind, status) = match r.status {
            None => (0, 0),
            Some(s) => (1, s),
        };
        let at = self.begin(b'R', &[o.addr.into(), kind, r.saps.0.into(), r.saps.1.into(), status.into()]);
        oracle::unit::bytes(&mut self.text, &r.payload);
        let [_, completed, event, _, _] = self.ask(at);
        self.silent[o.slot] = 0;
        self.classes.hit(Group::ReplyEvents, event as usize);
        let cycles = match o.request {
            Request::Diagnosis => r.taken(),
            Request::Parameters | Request::Configuration => r.status.is_none(),
            Request::Data => true,
        };
        // a reply that is a fall itself does not count
        match event {
            4 => (self.fallen[o.slot], self.cycled[o.slot]) = (Some(1), 0),
            3 => (self.fallen[o.slot], self.cycled[o.slot]) = (Some(2), 0),
            _ => self.cycled[o.slot] += u32::from(cycles),
        }
        if completed == 1 {
            self.classes.hit(Group::Cycle, 0);
        }
        self.count_reply(&v, o.request, r);
        if self.clear && v.outputs > 0 {
            let mark = usize::from(!self.balances[o.slot].fail_safe);
            let class = match (event, r.status) {
                (5, Some(_)) => 0,
                (5, None) => 1,
                _ => 2,
            };
            self.classes.hit(Group::ClearReplies, 3 * mark + class);
        }
    }

    fn count_reply(&mut self, v: &View, request: Request, r: &Reply) {
        let late = [Group::LateAsDiagnosis, Group::LateExtended, Group::LateAsData, Group::LateConfirmed];
        let (at, [as_diagnosis, extended, as_data, confirmed]) = match arrival(v, request) {
            at if at >= ARRIVALS.len() => (at - ARRIVALS.len(), late),
            at => (at, [Group::AsDiagnosis, Group::Extended, Group::AsData, Group::Confirmed]),
        };
        let Some(status) = r.status else {
            self.classes.hit(as_diagnosis, 9 * at);
            self.classes.hit(confirmed, 2 * at + usize::from(v.inputs > 0));
            return;
        };
        let code = STATUSES.iter().position(|&s| s == status).expect("a status of the nine");
        let length = match r.payload.len().cmp(&v.inputs) {
            std::cmp::Ordering::Equal => 0,
            std::cmp::Ordering::Less => 1,
            std::cmp::Ordering::Greater => 2,
        };
        self.classes.hit(as_data, 27 * at + 3 * code + length);
        let judged = if r.saps.0 != 62 {
            1
        } else if r.saps.1 != 60 {
            2
        } else if r.payload.len() < 6 {
            3
        } else {
            let f = r.flags();
            [0x40, 0x04, 0x100, 0x02].iter().position(|m| f & m != 0).map_or(8, |p| 4 + p)
        };
        self.classes.hit(as_diagnosis, 9 * at + judged);
        if judged < 4 {
            return;
        }
        let (flags, part) = (r.flags(), r.payload.len() - 6);
        let class = match (flags & 8 != 0, v.room, part) {
            (false, _, _) => 0,
            (true, 0, 0) => 6,
            (true, 0, _) => 7,
            (true, _, 0) => 1,
            (true, room, part) if part < room => 2,
            (true, room, part) if part == room => 3,
            (true, room, part) if part == room + 1 => 4,
            _ => 5,
        };
        self.classes.hit(extended, 8 * at + class);
        if request != Request::Diagnosis {
            return; // here it is not judged as a diagnosis
        }
        for k in (0..16).filter(|k| flags >> k & 1 == 1) {
            self.classes.hit(Group::Flags, k);
        }
        self.classes.hit(Group::Flags, 16 + usize::from(r.payload[3] != 255));
        if v.state == 3 {
            let n = (0..4).map(|k| usize::from(flags & [0x40, 0x04, 0x100, 0x02][k] != 0) << k).sum();
            self.classes.hit(Group::Faults, n);
        }
    }

    /// State of the balance, and 0 nothing open, 1 its own request, 2 another's.
    fn state_and_moment(&mut self, slot: usize) -> usize {
        let state = usize::from(self.unit().view(slot).state);
        let moment = match self.open() {
            None => 0,
            Some(o) if o.slot == slot => 1,
            Some(_) => 2,
        };
        3 * state + moment
    }

    fn by_handle(&mut self, letter: u8, slot: usize) {
        let addr = self.balances[slot].addr;
        self.simple(letter, &[slot as u64, addr.into()]);
    }

    pub fn wish(&mut self, slot: usize) {
        let class = self.state_and_moment(slot);
        self.classes.hit(Group::Wishes, class);
        self.by_handle(b'Q', slot);
    }

    pub fn reset(&mut self, slot: usize, new: u8) {
        let class = self.state_and_moment(slot);
        self.classes.hit(Group::Resets, class);
        let addr = self.balances[slot].addr;
        self.classes.hit(Group::ResetTo, usize::from(addr == new));
        self.simple(b'X', &[slot as u64, addr.into(), new.into()]);
        self.balances[slot].addr = new;
        self.silent[slot] = 0;
        (self.fallen[slot], self.cycled[slot]) = (None, 0);
    }

    pub fn write(&mut self, slot: usize, data: &[u8]) {
        let state = self.unit().view(slot).state;
        self.classes.hit(Group::Writes, state.into());
        let addr = self.balances[slot].addr;
        let at = self.begin(b'W', &[slot as u64, addr.into()]);
        oracle::unit::bytes(&mut self.text, data);
        self.ask(at);
    }

    pub fn inputs(&mut self, slot: usize) {
        let open = usize::from(self.open().is_some());
        self.classes.hit(Group::Reads, open);
        self.by_handle(b'I', slot);
    }

    pub fn outputs(&mut self, slot: usize) {
        let open = usize::from(self.open().is_some());
        self.classes.hit(Group::Reads, 2 + open);
        self.by_handle(b'O', slot);
    }

    pub fn diagnosis(&mut self, slot: usize) {
        let v = self.unit().view(slot);
        let class = match (v.held, v.stored) {
            (false, _) => 4,
            (true, 0) => 5,
            (true, _) => 6,
        };
        self.classes.hit(Group::Reads, class);
        if self.open().is_some() {
            self.classes.hit(Group::Reads, 7);
        }
        self.by_handle(b'G', slot);
    }

    pub fn listing(&mut self) {
        let open = usize::from(self.open().is_some());
        self.classes.hit(Group::Reads, 8 + open);
        self.simple(b'H', &[]);
    }

    pub fn dump(&mut self) {
        let open = usize::from(self.open().is_some());
        self.classes.hit(Group::Reads, 10 + open);
        let at = self.begin(b'D', &[]);
        let start = self.answers.len();
        self.driver.answer(&self.text[at..], &mut self.answers);
        self.text.push(b'\n');
        self.calls += 1;
        if !self.answers[start + 2].is_ascii_digit() {
            self.stray("a dump that is none");
        }
    }
}
