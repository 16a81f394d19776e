//! The classes that the scripts have to reach, and how often each was reached.
//!
//! A class is a group and a number in it. Each class of the domain has to occur at least 1,000 times in a full run, each limit
//! once. The late ones, of replies after a wish that came while data was asked, and those of data asked in Clear are of the wide
//! runs alone: 1,000 times in a full one, once in a shorter one of `SHORT` scripts.

/// The state of a balance when a reply arrives; the exchange states by what was asked.
pub const ARRIVALS: [&str; 8] = [
    "Offline",
    "WaitForParam",
    "WaitForConfig",
    "ValidateConfig",
    "PreDataExchange, data asked",
    "PreDataExchange, diagnosis asked",
    "DataExchange, data asked",
    "DataExchange, diagnosis asked",
];
/// The same outside the domain.
pub const LATE: [&str; 2] = ["PreDataExchange, wish while data was asked", "DataExchange, wish while data was asked"];
pub const STATES: [&str; 6] =
    ["Offline", "WaitForParam", "WaitForConfig", "ValidateConfig", "PreDataExchange", "DataExchange"];
/// A reply held against the rules of a diagnosis.
pub const AS_DIAGNOSIS: [&str; 9] = [
    "short confirmation",
    "wrong DSAP",
    "wrong SSAP",
    "under 6 bytes",
    "0x0040",
    "0x0004",
    "0x0100",
    "0x0002",
    "clean",
];
pub const EXTENDED: [&str; 8] = [
    "no 0x0008",
    "0x0008, no part",
    "fits",
    "fits exactly",
    "one too long",
    "far too long",
    "room 0, no part",
    "room 0, a part",
];
pub const STATUSES: [u8; 9] = [0, 1, 2, 3, 8, 9, 10, 12, 13];
const IMAGES: [&str; 2] = ["image of 0 bytes", "image of more"];
/// Whom data is asked of in Clear.
const MARKS: [&str; 2] = ["fail-safe", "not fail-safe"];
const LENGTHS: [&str; 3] = ["right length", "too short", "too long"];
const EVENTS: [&str; 8] =
    ["none", "Online", "Configured", "ConfigError", "ParameterError", "DataExchanged", "Diagnostics", "Offline"];
/// What visits can do, by the state of the visited balance.
pub const VISITS: [&str; 14] = [
    "Offline: diagnosis asked",
    "Offline: skipped",
    "Offline: falls",
    "WaitForParam: parameters sent",
    "WaitForParam: skipped, none there",
    "WaitForParam: falls",
    "WaitForConfig: configuration sent",
    "WaitForConfig: skipped, none there",
    "WaitForConfig: falls",
    "ValidateConfig: diagnosis asked",
    "ValidateConfig: falls",
    "exchange: diagnosis asked",
    "exchange: data sent",
    "exchange: falls",
];
const MOMENTS: [&str; 3] = ["nothing open", "its own request open", "another's request open"];

/// From this many scripts on every class of the run has to occur often enough.
pub const FULL: u64 = 200_000;
/// From this many scripts on every class of the wide runs alone has to occur in one.
pub const SHORT: u64 = 2_000;

#[derive(Clone, Copy, PartialEq, Eq)]
pub enum Group {
    AsDiagnosis,
    Extended,
    AsData,
    Confirmed,
    Faults,
    Flags,
    TurnEvents,
    ReplyEvents,
    Visits,
    Bits,
    SilentLimit,
    SilentState,
    FallAfterReply,
    FallSlot,
    BitsAnew,
    Wishes,
    Resets,
    ResetTo,
    OperateAgain,
    Adds,
    Writes,
    Reads,
    Times,
    HighPrio,
    Cycle,
    Parameters,
    Addresses,
    Balances,
    Images,
    Setup,
    SetupSent,
    Kinds,
    EachLimit,
    LateAsDiagnosis,
    LateExtended,
    LateAsData,
    LateConfirmed,
    ClearSent,
    ClearReplies,
}

pub const GROUPS: [Group; 39] = [
    Group::AsDiagnosis,
    Group::Extended,
    Group::AsData,
    Group::Confirmed,
    Group::Faults,
    Group::Flags,
    Group::TurnEvents,
    Group::ReplyEvents,
    Group::Visits,
    Group::Bits,
    Group::SilentLimit,
    Group::SilentState,
    Group::FallAfterReply,
    Group::FallSlot,
    Group::BitsAnew,
    Group::Wishes,
    Group::Resets,
    Group::ResetTo,
    Group::OperateAgain,
    Group::Adds,
    Group::Writes,
    Group::Reads,
    Group::Times,
    Group::HighPrio,
    Group::Cycle,
    Group::Parameters,
    Group::Addresses,
    Group::Balances,
    Group::Images,
    Group::Setup,
    Group::SetupSent,
    Group::Kinds,
    Group::EachLimit,
    Group::LateAsDiagnosis,
    Group::LateExtended,
    Group::LateAsData,
    Group::LateConfirmed,
    Group::ClearSent,
    Group::ClearReplies,
];

fn product(rows: &[&str], columns: &[&str]) -> Vec<String> {
    rows.iter().flat_map(|r| columns.iter().map(move |c| format!("{r}: {c}"))).collect()
}

fn statuses(arrivals: &[&str]) -> Vec<String> {
    let each: Vec<String> =
        STATUSES.iter().flat_map(|s| LENGTHS.iter().map(move |l| format!("status {s}, {l}"))).collect();
    product(arrivals, &each.iter().map(String::as_str).collect::<Vec<_>>())
}

fn plain(labels: &[&str]) -> Vec<String> {
    labels.iter().map(|l| l.to_string()).collect()
}

impl Group {
    pub fn title(self) -> &'static str {
        match self {
            Group::AsDiagnosis | Group::LateAsDiagnosis => "state and reply, as a diagnosis",
            Group::Extended | Group::LateExtended => "state and reply, extended part",
            Group::AsData | Group::LateAsData => "state and reply, status and length",
            Group::Confirmed | Group::LateConfirmed => "state and short confirmation, by input image",
            Group::Faults => "in ValidateConfig, the four flags that decide",
            Group::Flags => "flags of diagnoses that were taken",
            Group::TurnEvents => "events of turns",
            Group::ReplyEvents => "events of replies",
            Group::Visits => "visits",
            Group::Bits => "frame bit and request",
            Group::SilentLimit => "silence up to Offline, by limit",
            Group::SilentState => "silence up to Offline, by state",
            Group::FallAfterReply => "Offline after a reply that left the count, by state",
            Group::FallSlot => "slot of an Offline",
            Group::BitsAnew => "frame bit of requests after a fall",
            Group::Wishes => "wishes, by state and moment",
            Group::Resets => "resets, by state and moment",
            Group::ResetTo => "resets, by address",
            Group::OperateAgain => "Operate set again",
            Group::Adds => "adds, by moment",
            Group::Writes => "output writes, by state",
            Group::Reads => "reads in between",
            Group::Times => "time since the last global control",
            Group::HighPrio => "high_prio_only",
            Group::Cycle => "cycle",
            Group::Parameters => "parameters sent with",
            Group::Addresses => "scripts with address",
            Group::Balances => "scripts with balances",
            Group::Images => "images added",
            Group::Setup => "set-up data added",
            Group::SetupSent => "set-up data sent",
            Group::Kinds => "scripts by kind",
            Group::EachLimit => "silence up to Offline, each limit (seen once is enough)",
            Group::ClearSent => "data requests in Clear, by output image",
            Group::ClearReplies => "replies to data asked in Clear, output image of more than 0 bytes",
        }
    }

    fn labels(self) -> Vec<String> {
        match self {
            Group::AsDiagnosis => product(&ARRIVALS, &AS_DIAGNOSIS),
            Group::Extended => product(&ARRIVALS, &EXTENDED),
            Group::AsData => statuses(&ARRIVALS),
            Group::Confirmed => product(&ARRIVALS, &IMAGES),
            Group::LateAsDiagnosis => product(&LATE, &AS_DIAGNOSIS),
            Group::LateExtended => product(&LATE, &EXTENDED),
            Group::LateAsData => statuses(&LATE),
            Group::LateConfirmed => product(&LATE, &IMAGES),
            Group::Faults => (0..16)
                .map(|n| {
                    let flags: Vec<&str> = (0..4)
                        .filter(|k| n >> k & 1 == 1)
                        .map(|k| ["0x0040", "0x0004", "0x0100", "0x0002"][k])
                        .collect();
                    if flags.is_empty() {
                        "none".to_string()
                    } else {
                        flags.join(" ")
                    }
                })
                .collect(),
            Group::Flags => {
                (0..16).map(|k| format!("0x{:04x}", 1 << k)).chain(["no master".into(), "a master".into()]).collect()
            }
            Group::TurnEvents => plain(&["none", "Offline"]),
            Group::ReplyEvents => plain(&EVENTS[..7]),
            Group::Visits => plain(&VISITS),
            Group::Bits => plain(&[
                "First: diagnosis",
                "Low: diagnosis",
                "Low: parameters",
                "Low: configuration",
                "Low: data",
                "High: diagnosis",
                "High: parameters",
                "High: configuration",
                "High: data",
            ]),
            Group::SilentLimit => {
                plain(&["0", "1", "2 to 9", "10 to 49", "50 to 199", "200 to 253", "254", "scripts, 200 or more"])
            }
            Group::SilentState => plain(&STATES),
            Group::FallAfterReply => plain(&["Offline", "WaitForParam", "WaitForConfig", "exchange, diagnosis asked"]),
            Group::FallSlot => plain(&["0", "1 to 15", "16 to 30", "31"]),
            Group::BitsAnew => product(&["Offline", "ParameterError", "ConfigError"], &["First", "Low", "High"]),
            Group::Wishes | Group::Resets => product(&STATES, &MOMENTS),
            Group::ResetTo => plain(&["a new address", "its present address"]),
            Group::OperateAgain => {
                plain(&["nothing open", "a request open", "cycle completed", "before a global control was sent"])
            }
            Group::Adds => plain(&["before the first turn", "nothing open", "a request open", "cycle completed"]),
            Group::Writes => plain(&STATES),
            Group::Reads => plain(&[
                "I, nothing open",
                "I, a request open",
                "O, nothing open",
                "O, a request open",
                "G, none held",
                "G, held, nothing stored",
                "G, held, a part stored",
                "G, a request open",
                "H, nothing open",
                "H, a request open",
                "D, nothing open",
                "D, a request open",
            ]),
            Group::Times => product(
                &["one below 50 slot times", "50 slot times", "one above 50 slot times", "0", "less", "more"],
                &["all", "high_prio_only"],
            ),
            Group::HighPrio => plain(&["global control due and not sent", "no global control due"]),
            Group::Cycle => plain(&[
                "completed by a reply",
                "completed by a turn",
                "turn after a completed one",
                "global control between",
                "the same time as the turn before",
                "a time of 2^62 or later",
            ]),
            Group::Parameters => plain(&["watchdog off", "watchdog on", "neither", "freeze", "sync", "sync, freeze"]),
            Group::Addresses => plain(&["0, a balance", "125, a balance", "0, the master", "125, the master"]),
            Group::Balances => (1..=32).map(|n| n.to_string()).collect(),
            Group::Images => product(
                &["inputs", "outputs", "room"],
                &["0", "1", "the longest but one", "the longest", "another length"],
            ),
            Group::Setup | Group::SetupSent => {
                let all =
                    product(&["user parameters", "configuration"], &["absent", "empty", "full", "another length"]);
                if self == Group::Setup {
                    all
                } else {
                    all.into_iter().filter(|l| !l.contains("absent")).collect()
                }
            }
            Group::Kinds => plain(&["plain", "marked: configuration of other lengths"]),
            Group::EachLimit => (0..255).map(|n| n.to_string()).collect(),
            Group::ClearSent => product(&MARKS, &IMAGES),
            Group::ClearReplies => product(&MARKS, &["data taken", "short confirmation taken", "no event"]),
        }
    }

    /// Reached outside the domain alone.
    fn is_wide(self) -> bool {
        let late =
            matches!(self, Group::LateAsDiagnosis | Group::LateExtended | Group::LateAsData | Group::LateConfirmed);
        late || matches!(self, Group::ClearSent | Group::ClearReplies)
    }

    /// How often each class of the group has to occur in a run of `n` scripts.
    fn least(self, wide: bool, n: u64) -> u64 {
        match self {
            g if g.is_wide() != wide => 0,
            Group::EachLimit if n >= FULL => 1,
            _ if n >= FULL => 1_000,
            _ if wide && n >= SHORT => 1,
            _ => 0,
        }
    }
}

pub struct Classes {
    wide: bool,
    base: Vec<usize>,
    labels: Vec<Vec<String>>,
    pub counts: Vec<u64>,
}

impl Classes {
    pub fn new(wide: bool) -> Self {
        let labels: Vec<Vec<String>> = GROUPS.iter().map(|g| g.labels()).collect();
        let mut base = Vec::new();
        let mut n = 0;
        for (g, l) in GROUPS.iter().zip(&labels) {
            assert!(*g as usize == base.len());
            base.push(n);
            n += l.len();
        }
        Classes { wide, base, labels, counts: vec![0; n] }
    }

    pub fn hit(&mut self, group: Group, class: usize) {
        assert!(class < self.labels[group as usize].len());
        self.counts[self.base[group as usize] + class] += 1;
    }

    fn of(&self, group: Group) -> &[u64] {
        let at = self.base[group as usize];
        &self.counts[at..at + self.labels[group as usize].len()]
    }

    /// The groups that the run can reach.
    fn groups(&self) -> impl Iterator<Item = Group> + '_ {
        GROUPS.into_iter().filter(|g| self.wide || !g.is_wide())
    }

    /// Group, class and count of every class that the run can reach.
    pub fn each(&self) -> impl Iterator<Item = (Group, &str, u64)> + '_ {
        self.groups().flat_map(move |g| {
            let labels = &self.labels[g as usize];
            labels.iter().zip(self.of(g)).map(move |(l, &n)| (g, l.as_str(), n))
        })
    }

    /// As `each`, those that a run of `n` scripts has to reach, with the least count asked for.
    pub fn asked(&self, n: u64) -> impl Iterator<Item = (Group, &str, u64, u64)> + '_ {
        self.each().map(move |(g, l, c)| (g, l, c, g.least(self.wide, n))).filter(|c| c.3 > 0)
    }

    /// How many scripts were counted.
    pub fn scripts(&self) -> u64 {
        self.of(Group::Kinds).iter().sum()
    }

    /// One line a group: how many classes, and the rarest.
    pub fn print_groups(&self) {
        for g in self.groups() {
            let counts = self.of(g);
            let (at, least) = counts.iter().enumerate().min_by_key(|&(_, n)| n).unwrap();
            println!(
                "  {}: {} classes, {} in all, the rarest {} ({})",
                g.title(),
                counts.len(),
                counts.iter().sum::<u64>(),
                least,
                self.labels[g as usize][at]
            );
        }
    }

    pub fn write_all(&self, path: &str) -> std::io::Result<()> {
        use std::io::Write;
        let mut f = std::io::BufWriter::new(std::fs::File::create(path)?);
        for (g, label, n) in self.each() {
            writeln!(f, "{n}\t{}\t{label}", g.title())?;
        }
        f.flush()
    }
}
