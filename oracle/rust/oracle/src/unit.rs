//! One unit: the original DP master with what a script's calls need around it (pool lengths, the open request, the
//! time of the last turn), and the answer to each call in the words of docs/SCRIPTS.md.
//!
//! Only what stands in the domain of the comparison is asked of the original; for anything else `call` answers false
//! and changes nothing, but that a wish for a balance while data is asked of it leaves the domain until the next unit.
//! The original knows no pools: each balance owns its images, and D puts the pools together.
//! After a reported fall a balance's frame bit is this driver's, First and then cycled where the original's is.
//! In Clear the data request to a balance marked fail-safe is empty by this driver; the original is held to its zeros.
//! `beyond` the domain it is asked whatever it can be asked: only what it has no notion of is answered false.
use crate::line::{Addition, Call, Creation, Reply};
use profirust::dp::{
    DpMaster, OperatingState, Peripheral, PeripheralEvent, PeripheralHandle, PeripheralOptions, PeripheralStorage,
};
use profirust::fdl::{
    DataTelegram, DataTelegramHeader, FdlActiveStation, FdlApplication, FrameCountBit, FunctionCode, Parameters,
    RequestType, ResponseState, ResponseStatus, ShortConfirmation, Telegram, TelegramTx, TokenTelegram,
};
use profirust::time::Instant;
use std::panic::{catch_unwind, AssertUnwindSafe};

pub const SLOTS: usize = 32;
/// Bytes of a pool array, entries of the list array: docs/SCRIPTS.md, "What the program holds".
const ARRAY: usize = 16_400;
const LIST: usize = 40;

/// Set-up data, which the original only borrows: kept here, and given back when the unit is gone.
#[derive(Default)]
struct Setup(Vec<*mut [u8]>);

impl Setup {
    fn keep(&mut self, data: &[u8]) -> &'static [u8] {
        let kept = Box::into_raw(data.to_vec().into_boxed_slice());
        self.0.push(kept);
        // The bytes live until `Setup` is dropped, after the master (field order of `Unit`).
        unsafe { &*kept }
    }
}

impl Drop for Setup {
    fn drop(&mut self) {
        for &kept in &self.0 {
            drop(unsafe { Box::from_raw(kept) });
        }
    }
}

struct Added {
    handle: PeripheralHandle,
    user: Option<&'static [u8]>,
    config: Option<&'static [u8]>,
    /// first byte in each pool
    off: [usize; 4],
}

/// What a turn sent, and so what a reply would answer; D writes the number.
#[derive(Clone, Copy, PartialEq, Eq, Debug)]
pub enum Request {
    Diagnosis = 1,
    Parameters,
    Configuration,
    Data,
}

#[derive(Clone, Copy)]
pub struct Open {
    pub slot: usize,
    pub addr: u8,
    pub request: Request,
    /// A wish was made while this data request was open, and waits until it is closed.
    wished: bool,
}

/// What can be seen of a balance, for the generator.
pub struct View {
    pub addr: u8,
    /// 0 Offline to 5 DataExchange
    pub state: u8,
    pub count: u8,
    pub bit: u8,
    pub due: bool,
    pub held: bool,
    pub stored: usize,
    pub inputs: usize,
    pub outputs: usize,
    pub room: usize,
    pub user: Option<usize>,
    pub config: Option<usize>,
}

pub struct Unit {
    dp: DpMaster<'static>,
    setup: Setup,
    fdl: FdlActiveStation,
    added: Vec<Added>,
    pub pools: [usize; 4],
    pub used: [usize; 4],
    pub last_turn: Option<u64>,
    pub open: Option<Open>,
    list: [[u8; 3]; LIST],
    /// By slot: the frame bit since a reported fall, which 01 starts anew there and the original does not.
    anew: [Option<u8>; LIST],
    /// The run left the domain by a wish for a balance while data was asked of it.
    left: bool,
    beyond: bool,
    /// what the payload buffer holds before a turn: 0, and beyond the domain the byte of the last F
    fill: u8,
}

fn number(out: &mut Vec<u8>, mut n: u64) {
    let mut digits = [0u8; 20];
    let mut at = digits.len();
    loop {
        at -= 1;
        digits[at] = b'0' + (n % 10) as u8;
        n /= 10;
        if n == 0 {
            break;
        }
    }
    out.extend_from_slice(&digits[at..]);
}

/// Each number after one space.
pub fn fields(out: &mut Vec<u8>, numbers: &[u64]) {
    for &n in numbers {
        out.push(b' ');
        number(out, n);
    }
}

/// A space, then the bytes.
pub fn bytes(out: &mut Vec<u8>, data: &[u8]) {
    const HEX: &[u8; 16] = b"0123456789abcdef";
    out.push(b' ');
    if data.is_empty() {
        out.push(b'-');
    }
    for &b in data {
        out.push(HEX[usize::from(b >> 4)]);
        out.push(HEX[usize::from(b & 15)]);
    }
}

fn checksum(data: impl Iterator<Item = u8>) -> u64 {
    data.fold(1, |h, b| (h * 256 + u64::from(b)) % 1_000_000_007)
}

fn event_code(event: PeripheralEvent) -> u64 {
    match event {
        PeripheralEvent::Online => 1,
        PeripheralEvent::Configured => 2,
        PeripheralEvent::ConfigError => 3,
        PeripheralEvent::ParameterError => 4,
        PeripheralEvent::DataExchanged => 5,
        PeripheralEvent::Diagnostics => 6,
        PeripheralEvent::Offline => 7,
    }
}

fn bit_code(bit: FrameCountBit) -> u8 {
    match bit {
        FrameCountBit::Inactive => 0,
        FrameCountBit::First => 1,
        FrameCountBit::Low => 2,
        FrameCountBit::High => 3,
    }
}

fn sap(number: u8) -> Option<u8> {
    (number != 255).then_some(number)
}

fn request_diagnostics(p: &mut Peripheral<'static>) -> bool {
    p.request_diagnostics();
    true
}

/// A handle to any slot, as another master gives it out.
fn foreign(slot: u8) -> PeripheralHandle {
    let mut other = DpMaster::new(Vec::new());
    (0..=slot).map(|_| other.add(Peripheral::default())).last().expect("at least one")
}

impl Unit {
    /// None for a creation that 01 refuses; the original refuses none.
    pub fn new(p: &Creation, beyond: bool) -> Option<Unit> {
        let allowed = p.own <= 125
            && p.retry <= 254
            && (1..=1_000_000).contains(&p.slot_time)
            && p.pools.iter().all(|&n| n <= 16_384);
        if !allowed && !beyond {
            return None;
        }
        let storage: Vec<PeripheralStorage<'static>> = (0..SLOTS).map(|_| Default::default()).collect();
        Some(Unit {
            dp: DpMaster::new(storage),
            setup: Setup::default(),
            fdl: FdlActiveStation::new(Parameters {
                address: p.own,
                slot_time_us: u64::from(p.slot_time),
                max_retry_limit: p.retry,
                watchdog_factors: p.watchdog,
                min_tsdr_bits: p.tsdr,
            }),
            added: Vec::new(),
            pools: p.pools.map(usize::from),
            used: [0; 4],
            last_turn: None,
            open: None,
            list: [[0; 3]; LIST],
            anew: [None; LIST],
            left: false,
            beyond,
            fill: 0,
        })
    }

    /// Makes the call; the answer goes to `out`, after the letter. False: the original is not asked this.
    pub fn call(&mut self, call: &Call, wide: bool, out: &mut Vec<u8>) -> bool {
        if self.left {
            return false;
        }
        match call {
            Call::A(a) => self.add(a, out),
            Call::S(state) => self.enter(*state, wide, out),
            Call::T { now, high_prio } => self.turn(*now, *high_prio, out),
            Call::R(r) => self.reply(r, out),
            Call::X { slot, new } => self.reset(*slot, *new, out),
            Call::Q { slot } => self.wish(*slot, wide, out),
            Call::W { slot, bytes } => self.with(*slot, |p| {
                if p.pi_q().len() != bytes.len() {
                    return false;
                }
                p.pi_q_mut().copy_from_slice(bytes);
                fields(out, &[0]);
                true
            }),
            Call::I { slot } => self.with(*slot, |p| {
                fields(out, &[0, p.pi_i().len() as u64]);
                bytes(out, p.pi_i());
                true
            }),
            Call::O { slot } => self.with(*slot, |p| {
                fields(out, &[0, p.pi_q().len() as u64]);
                bytes(out, p.pi_q());
                true
            }),
            Call::G { slot } => self.with(*slot, |p| {
                match p.last_diagnostics() {
                    None => out.extend_from_slice(b" 0 0 0 0 255 0 -"),
                    Some(d) => {
                        let (flags, ident) = (u64::from(d.flags.bits()), u64::from(d.ident_number));
                        let part = d.extended_diagnostics.stored();
                        let master = d.master_address.map_or(255, u64::from);
                        fields(out, &[0, 1, flags, ident, master, part.len() as u64]);
                        bytes(out, part);
                    }
                }
                true
            }),
            Call::H => self.listing(out),
            Call::D => self.dump(out),
            Call::F(byte) if self.beyond => {
                self.fill = *byte;
                true
            }
            Call::N(_) | Call::F(_) | Call::Other => false,
        }
    }

    fn with(&mut self, slot: u8, f: impl FnOnce(&mut Peripheral<'static>) -> bool) -> bool {
        match self.added.get(usize::from(slot)) {
            None if self.beyond => f(self.dp.get_mut(foreign(slot))),
            None => false,
            Some(a) => f(self.dp.get_mut(a.handle)),
        }
    }

    /// A wish made while data is asked of that balance takes the run out of the domain. Where `wide`, the original gets it when
    /// that request is closed, since it judges a reply by what is due; beyond the domain it gets it at once.
    fn wish(&mut self, slot: u8, wide: bool, out: &mut Vec<u8>) -> bool {
        match &mut self.open {
            Some(o) if o.slot == usize::from(slot) && o.request == Request::Data && !self.beyond => {
                if !wide {
                    self.left = true;
                    return false;
                }
                o.wished = true;
            }
            _ => {
                if !self.with(slot, request_diagnostics) {
                    return false;
                }
            }
        }
        fields(out, &[0]);
        true
    }

    /// The open request is closed: a wish that waited for it is put to the original.
    fn close(&mut self) {
        if let Some(o) = self.open.take().filter(|o| o.wished) {
            self.with(o.slot as u8, request_diagnostics);
        }
    }

    /// A wish for this balance waits for its data request to be closed.
    fn waits(&self, slot: usize) -> bool {
        self.open.is_some_and(|o| o.slot == slot && o.wished)
    }

    /// A balance in another slot than `slot` has this address.
    fn elsewhere(&self, slot: usize, addr: u8) -> bool {
        self.dp.iter().any(|(h, p)| usize::from(h.peek_index()) != slot && p.address() == addr)
    }

    /// A reported Offline, ParameterError or ConfigError: 01 puts the bit to First; beyond the domain the original's own is shown.
    fn fell(&mut self, slot: usize) {
        if !self.beyond {
            self.anew[slot] = Some(bit_code(FrameCountBit::First));
        }
    }

    /// The frame bit of a balance, whose bit in the original is `own`.
    fn bit(&self, slot: usize, own: FrameCountBit) -> u8 {
        self.anew[slot].unwrap_or(bit_code(own))
    }

    /// The balance that is asked cycled its bit: First to Low to High to Low.
    fn cycled(&mut self) {
        if let Some(bit) = self.open.and_then(|o| self.anew[o.slot].as_mut()) {
            *bit = if *bit == 2 { 3 } else { 2 };
        }
    }

    /// The original's own bit of the balance that is asked.
    fn asked_bit(&mut self) -> Option<u8> {
        let slot = self.open?.slot;
        Some(bit_code(self.dp.get_mut(self.added[slot].handle).peek().fcb))
    }

    fn add(&mut self, a: &Addition, out: &mut Vec<u8>) -> bool {
        let length = |s: &Option<Vec<u8>>| s.as_ref().map_or(0, Vec::len);
        let (user, config) = (length(&a.user), length(&a.config));
        let [inputs, outputs, room] = a.lengths.map(usize::from);
        let need = [user + config, inputs, outputs, room];
        let outside = self.added.len() == SLOTS
            || a.addr > 125
            || a.addr == self.fdl.parameters().address
            || self.elsewhere(self.added.len(), a.addr)
            || user > 237
            || config > 244
            || inputs > 244
            || outputs > 244
            || room > 238
            || (0..4).any(|k| self.used[k] + need[k] > self.pools[k]);
        // beyond the domain the original's table grows; the list array ends this driver's
        if outside && !self.beyond || self.added.len() == LIST {
            return false;
        }
        let user = a.user.as_ref().map(|u| self.setup.keep(u));
        let config = a.config.as_ref().map(|c| self.setup.keep(c));
        let options = PeripheralOptions {
            ident_number: a.ident,
            sync_mode: a.sync,
            freeze_mode: a.freeze,
            groups: a.groups,
            max_tsdr: 0,
            fail_safe: a.fail_safe,
            user_parameters: user,
            config,
        };
        let balance = Peripheral::new(a.addr, options, vec![0; inputs], vec![0; outputs]);
        let handle = self.dp.add(balance.with_diag_buffer(vec![0; room]));
        assert!(usize::from(handle.peek_index()) == self.added.len());
        self.added.push(Added { handle, user, config, off: self.used });
        for (used, need) in self.used.iter_mut().zip(need) {
            *used += need;
        }
        fields(out, &[0, handle.peek_index().into(), handle.address().into()]);
        true
    }

    fn enter(&mut self, state: u8, wide: bool, out: &mut Vec<u8>) -> bool {
        let wanted = [OperatingState::Stop, OperatingState::Clear, OperatingState::Operate][usize::from(state)];
        if state == 2 || self.beyond {
            self.dp.enter_state(wanted);
        } else if !wide {
            return false;
        } else {
            // The original sets the state and then runs into todo!(); this panic alone is passed over.
            let dp = &mut self.dp;
            let _ = catch_unwind(AssertUnwindSafe(|| dp.enter_state(wanted)));
            assert!(self.dp.operating_state() == wanted);
        }
        fields(out, &[0]);
        true
    }

    fn turn(&mut self, now: u64, high_prio: bool, out: &mut Vec<u8>) -> bool {
        let endless = self.added.is_empty() && !self.dp.operating_state().is_stop();
        // the original's time is signed: beyond 2^63 it is asked with the same 64 bits
        let time = Instant::from_micros_const(now as i64);
        if self.beyond {
            let due = |t| time - t >= self.fdl.parameters().slot_time() * 50;
            if endless && (high_prio || !self.dp.peek_global_control().map_or(true, due)) {
                out.extend_from_slice(b" endless");
                return true;
            }
        } else if now > i64::MAX as u64 || self.last_turn.is_some_and(|t| now < t) || endless {
            return false;
        }
        self.close();
        let mut buf = vec![self.fill; if self.beyond { usize::from(u16::MAX) } else { 255 }];
        let sent = self.dp.transmit_telegram(time, &self.fdl, TelegramTx::new(&mut buf), high_prio);
        let events = self.dp.take_last_events();
        self.last_turn = Some(now);
        let (code, slot) = events.peripheral.map_or((0, 255), |(h, e)| (event_code(e), h.peek_index()));
        // At most one Offline in a turn: the original asserts it, so the mask has one bit at most.
        let mask = if code == 7 { 1 << slot } else { 0 };
        if code == 7 {
            self.fell(slot.into());
        }
        fields(out, &[0, events.cycle_completed.into(), mask, code, slot.into()]);
        let Some(sent) = sent else {
            fields(out, &[0, 0]);
            return true;
        };
        let h = sent.header;
        let FunctionCode::Request { fcb, req } = h.fc else { panic!("the original sent a response") };
        let fc = match req {
            RequestType::SdnLow => 4,
            RequestType::SrdLow => 12,
            RequestType::SrdHigh => 13,
        };
        if fc != 4 {
            self.open = Some(self.sent_to(&h));
        }
        let to = self.open.map_or(255, |o| o.slot as u64);
        let (dsap, ssap) = (h.dsap.unwrap_or(255), h.ssap.unwrap_or(255));
        let payload = self.payload(&buf[..sent.pdu_len]);
        fields(out, &[payload.len() as u64, 1, h.da.into(), h.sa.into(), dsap.into(), ssap.into()]);
        let bit = self.open.map_or(bit_code(fcb), |o| self.bit(o.slot, fcb));
        fields(out, &[fc, bit.into(), to]);
        bytes(out, payload);
        true
    }

    /// The payload of what was sent. In Clear 01 sends a balance marked fail-safe an empty data request, the original zeros of
    /// the image's length: it is held to them, and none is answered.
    fn payload<'b>(&mut self, sent: &'b [u8]) -> &'b [u8] {
        let clear = self.dp.operating_state().is_clear();
        let Some(o) = self.open.filter(|o| clear && o.request == Request::Data) else { return sent };
        let p = self.dp.get_mut(self.added[o.slot].handle);
        if !p.options().fail_safe {
            return sent;
        }
        let zeros = vec![0; p.pi_q().len()];
        assert!(sent == zeros, "the original sent a fail-safe balance something else than zeros in Clear");
        &[]
    }

    /// The slot that the place found, with what it was sent.
    fn sent_to(&self, h: &DataTelegramHeader) -> Open {
        let place = self.dp.peek_place().expect("sent with no place");
        let slot = self.dp.iter().map(|(h, _)| h.peek_index()).find(|&i| i >= place).expect("sent to no slot");
        Open {
            slot: slot.into(),
            addr: h.da,
            request: match h.dsap {
                Some(60) => Request::Diagnosis,
                Some(61) => Request::Parameters,
                Some(62) => Request::Configuration,
                _ => Request::Data,
            },
            wished: false,
        }
    }

    fn reply(&mut self, r: &Reply, out: &mut Vec<u8>) -> bool {
        let (da, sa) = (self.fdl.parameters().address, r.addr);
        let data = |fc| {
            let h = DataTelegramHeader { da, sa, dsap: sap(r.dsap), ssap: sap(r.ssap), fc };
            Telegram::Data(DataTelegram { h, pdu: &r.payload })
        };
        let telegram = match (r.kind, ResponseStatus::from_code(r.status)) {
            (0, _) => Telegram::ShortConfirmation(ShortConfirmation),
            (1, Some(status)) if r.payload.len() <= 246 => {
                data(FunctionCode::Response { state: ResponseState::Slave, status })
            }
            (2, _) if self.beyond => Telegram::Token(TokenTelegram { da, sa }),
            (3, _) if self.beyond => data(FunctionCode::new_srd_low(FrameCountBit::Inactive)),
            _ => return false,
        };
        if !self.beyond && !self.open.is_some_and(|o| o.addr == r.addr) {
            return false;
        }
        let before = self.asked_bit();
        // The original does not look at the time of a reply.
        let now = Instant::from_micros_const(self.last_turn.unwrap_or(0) as i64);
        self.dp.receive_reply(now, &self.fdl, r.addr, telegram);
        let events = self.dp.take_last_events();
        // every cycle changes the original's bit, so that a change tells of one
        if self.asked_bit() != before {
            self.cycled();
        }
        self.close();
        let (code, slot) = events.peripheral.map_or((0, 255), |(h, e)| (event_code(e), h.peek_index()));
        if code == 3 || code == 4 {
            self.fell(slot.into());
        }
        fields(out, &[0, events.cycle_completed.into(), code, slot.into()]);
        true
    }

    fn reset(&mut self, slot: u8, new: u8, out: &mut Vec<u8>) -> bool {
        let outside = new > 125 || new == self.fdl.parameters().address || self.elsewhere(usize::from(slot), new);
        if outside && !self.beyond {
            return false;
        }
        let done = self.with(slot, |p| {
            p.reset_address(new);
            true
        });
        if !done {
            return false;
        }
        // a wish that waited goes with the request: a reset leaves nothing due
        if self.open.is_some_and(|o| o.slot == usize::from(slot)) {
            self.open = None;
        }
        self.anew[usize::from(slot)] = None;
        fields(out, &[0]);
        true
    }

    fn listing(&mut self, out: &mut Vec<u8>) -> bool {
        let mut n = 0;
        for (h, p) in self.dp.iter() {
            self.list[n] = [h.peek_index(), h.address(), p.is_running().into()];
            n += 1;
        }
        fields(out, &[0, n as u64]);
        for entry in &self.list[..n] {
            fields(out, &entry.map(u64::from));
        }
        fields(out, &[checksum(self.list.iter().flatten().copied())]);
        true
    }

    fn dump(&mut self, out: &mut Vec<u8>) -> bool {
        if self.used.iter().any(|&n| n > ARRAY) {
            return false;
        }
        let p = self.fdl.parameters();
        let (f1, f2) = p.watchdog_factors.unwrap_or((0, 0));
        let on = p.watchdog_factors.is_some();
        fields(out, &[p.address.into(), p.max_retry_limit.into(), p.slot_time_us, on.into()]);
        fields(out, &[f1.into(), f2.into(), p.min_tsdr_bits.into()]);
        fields(out, &self.pools.map(|n| n as u64));
        let state = match self.dp.operating_state() {
            OperatingState::Stop => 0,
            OperatingState::Clear => 1,
            OperatingState::Operate => 2,
        };
        let control = self.last_control();
        fields(out, &[state, self.last_turn.is_some().into(), self.last_turn.unwrap_or(0)]);
        fields(out, &[control.is_some().into(), control.unwrap_or(0)]);
        fields(out, &[self.place().map_or(255, |i| i as u64)]);
        fields(out, &self.open.map_or([255, 0], |o| [o.slot as u64, o.request as u64]));
        fields(out, &self.used.map(|n| n as u64));
        let mut pools = [[0u8; ARRAY]; 4];
        for ((_, p), a) in self.dp.iter().zip(&self.added) {
            let (user, config) = (a.user.unwrap_or(&[]), a.config.unwrap_or(&[]));
            let mut put = |pool: usize, at: usize, data: &[u8]| pools[pool][at..][..data.len()].copy_from_slice(data);
            put(0, a.off[0], user);
            put(0, a.off[0] + user.len(), config);
            put(1, a.off[1], p.pi_i());
            put(2, a.off[2], p.pi_q());
            put(3, a.off[3], p.peek().ext_room);
        }
        for pool in &pools {
            fields(out, &[checksum(pool.iter().copied())]);
        }
        fields(out, &[self.added.len() as u64]);
        for ((h, p), a) in self.dp.iter().zip(&self.added) {
            let (k, o) = (p.peek(), p.options());
            assert!(o.user_parameters == a.user && o.config == a.config);
            let (flags, ident, master) = k.held.unwrap_or((0, 0, None));
            fields(out, &[h.peek_index().into(), p.address().into(), k.state.into(), k.count.into()]);
            let due = k.due || self.waits(h.peek_index().into());
            let bit = self.bit(h.peek_index().into(), k.fcb);
            fields(out, &[bit.into(), due.into(), k.held.is_some().into()]);
            fields(out, &[flags.into(), ident.into(), master.map_or(255, u64::from), k.ext_len as u64]);
            fields(out, &[o.ident_number.into(), o.sync_mode.into(), o.freeze_mode.into()]);
            fields(out, &[o.groups.into(), o.fail_safe.into()]);
            for s in [a.user, a.config] {
                match s {
                    None => out.extend_from_slice(b" x"),
                    Some(s) => fields(out, &[s.len() as u64]),
                }
            }
            fields(out, &[p.pi_i().len() as u64, p.pi_q().len() as u64, k.ext_room.len() as u64]);
            fields(out, &a.off.map(|n| n as u64));
        }
        true
    }

    // What the generator looks at.

    pub fn balances(&self) -> usize {
        self.added.len()
    }

    /// The place; None when the cycle was completed by a reply.
    pub fn place(&self) -> Option<usize> {
        self.dp.peek_place().map(usize::from)
    }

    /// The time of the last global control since the state was set.
    pub fn last_control(&self) -> Option<u64> {
        self.dp.peek_global_control().map(|t| t.total_micros() as u64)
    }

    pub fn parameters(&self) -> &Parameters {
        self.fdl.parameters()
    }

    pub fn view(&mut self, slot: usize) -> View {
        let (waits, anew) = (self.waits(slot), self.anew[slot]);
        let a = &self.added[slot];
        let p = self.dp.get_mut(a.handle);
        let k = p.peek();
        View {
            addr: p.address(),
            state: k.state,
            count: k.count,
            bit: anew.unwrap_or(bit_code(k.fcb)),
            due: k.due || waits,
            held: k.held.is_some(),
            stored: k.ext_len,
            inputs: p.pi_i().len(),
            outputs: p.pi_q().len(),
            room: k.ext_room.len(),
            user: a.user.map(<[u8]>::len),
            config: a.config.map(<[u8]>::len),
        }
    }
}
