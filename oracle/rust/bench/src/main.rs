//! The measurement of speed over the original text: the same turns, replies and sum as the program `bench`
//! (docs/COMPARE.md, "Speed"). Reads one line, MODE BALANCES ROUNDS, and writes the sum. With the word `sum` behind, it
//! only sums as many numbers as that run would, which says what the sum itself takes.
use profirust::dp::{DpMaster, Peripheral, PeripheralEvent, PeripheralHandle, PeripheralOptions, PeripheralStorage};
use profirust::fdl::{
    DataTelegram, DataTelegramHeader, FdlActiveStation, FdlApplication, FrameCountBit, FunctionCode, Parameters,
    RequestType, ResponseState, ResponseStatus, ShortConfirmation, Telegram, TelegramTx,
};
use profirust::time::Instant;

/// The sum over every number of every answer; `seen`, where it is there, keeps the numbers.
struct Sum {
    h: u64,
    seen: Option<Vec<u32>>,
}

impl Sum {
    #[inline(always)]
    fn mix(&mut self, n: u64) {
        self.h = (self.h * 256 + n) % 1_000_000_007;
        if let Some(seen) = &mut self.seen {
            seen.push(n as u32);
        }
    }

    fn mix_all(&mut self, numbers: &[u64]) {
        for &n in numbers {
            self.mix(n);
        }
    }

    fn mix_event(&mut self, event: &Option<(PeripheralHandle, PeripheralEvent)>) {
        let (code, slot) = match event {
            Some((h, e)) => (number(*e), u64::from(h.peek_index())),
            None => (0, 255),
        };
        self.mix_all(&[code, slot]);
    }
}

fn number(e: PeripheralEvent) -> u64 {
    match e {
        PeripheralEvent::Online => 1,
        PeripheralEvent::Configured => 2,
        PeripheralEvent::ConfigError => 3,
        PeripheralEvent::ParameterError => 4,
        PeripheralEvent::DataExchanged => 5,
        PeripheralEvent::Diagnostics => 6,
        PeripheralEvent::Offline => 7,
    }
}

fn bit(b: FrameCountBit) -> u64 {
    match b {
        FrameCountBit::Inactive => 0,
        FrameCountBit::First => 1,
        FrameCountBit::Low => 2,
        FrameCountBit::High => 3,
    }
}

const OWN: u8 = 2;

fn data<'p>(from: u8, saps: (Option<u8>, Option<u8>), pdu: &'p [u8]) -> Telegram<'p> {
    Telegram::Data(DataTelegram {
        h: DataTelegramHeader {
            da: OWN,
            sa: from,
            dsap: saps.0,
            ssap: saps.1,
            fc: FunctionCode::Response { state: ResponseState::Slave, status: ResponseStatus::DataLow },
        },
        pdu,
    })
}

fn run(mode: u64, balances: u8, rounds: u64, mut sum: Sum) -> Sum {
    let fdl = FdlActiveStation::new(Parameters {
        address: OWN,
        slot_time_us: 200,
        max_retry_limit: 1,
        watchdog_factors: None,
        min_tsdr_bits: 11,
    });
    let storage: Vec<PeripheralStorage> = (0..32).map(|_| Default::default()).collect();
    let mut dp = DpMaster::new(storage);
    let mut handles = Vec::new();
    for k in 0..balances {
        let options = PeripheralOptions {
            ident_number: 0x1234,
            user_parameters: Some(&[0, 1, 2]),
            config: Some(&[0x13, 0x23]),
            ..Default::default()
        };
        let balance = Peripheral::new(3 + k, options, vec![0; 4], vec![0; 4]).with_diag_buffer(vec![0; 16]);
        handles.push(dp.add(balance));
    }
    dp.enter_operate();
    let mut buf = [0u8; 255];
    for c in 0..16 * u64::from(balances) + 16 + rounds {
        let now = Instant::from_micros_const(100 * (c as i64 + 1));
        let sent = dp.transmit_telegram(now, &fdl, TelegramTx::new(&mut buf), false);
        let events = dp.take_last_events();
        let mask = match events.peripheral {
            Some((h, PeripheralEvent::Offline)) => 1 << h.peek_index(),
            _ => 0,
        };
        sum.mix_all(&[0, events.cycle_completed.into(), mask]);
        sum.mix_event(&events.peripheral);
        let Some(sent) = sent else {
            sum.mix_all(&[0, 0]);
            continue;
        };
        let h = sent.header;
        let FunctionCode::Request { fcb, req } = h.fc else { unreachable!() };
        let fc = match req {
            RequestType::SdnLow => 4,
            RequestType::SrdLow => 12,
            RequestType::SrdHigh => 13,
        };
        let to = if h.da == 0x7f { 255 } else { h.da - 3 };
        sum.mix_all(&[sent.pdu_len as u64, 1, h.da.into(), h.sa.into()]);
        sum.mix_all(&[h.dsap.unwrap_or(255).into(), h.ssap.unwrap_or(255).into(), fc, bit(fcb), to.into()]);
        for &b in &buf[..sent.pdu_len] {
            sum.mix(b.into());
        }
        // the original counts on zeroed buffers
        buf[..sent.pdu_len].fill(0);
        if to == 255 || mode == 1 && to != 0 {
            continue;
        }
        let image = [c as u8, (c / 256) as u8, to, 7];
        let telegram = match h.dsap {
            Some(60) => data(h.da, (Some(62), Some(60)), &[0x00, 0x0c, 0x00, 0x02, 0x12, 0x34]),
            Some(_) => Telegram::ShortConfirmation(ShortConfirmation),
            None => data(h.da, (None, None), &image),
        };
        dp.receive_reply(now, &fdl, h.da, telegram);
        let events = dp.take_last_events();
        sum.mix_all(&[0, events.cycle_completed.into()]);
        sum.mix_event(&events.peripheral);
    }
    for h in handles {
        for &b in dp.get_mut(h).pi_i() {
            sum.mix(b.into());
        }
    }
    sum
}

/// The sum alone, over about as many numbers: those of the last of 20,000 rounds, again and again.
fn sum_only(mode: u64, balances: u8, rounds: u64) -> u64 {
    let keep = |rounds| {
        let seen = Some(Vec::new());
        run(mode, balances, rounds, Sum { h: 1, seen }).seen.unwrap()
    };
    let short = keep(10_000).len();
    let numbers = keep(20_000);
    let mut sum = Sum { h: 1, seen: None };
    for _ in 0..rounds / 10_000 {
        for &n in &numbers[short..] {
            sum.mix(n.into());
        }
    }
    sum.h
}

fn main() {
    let mut line = String::new();
    std::io::stdin().read_line(&mut line).expect("standard input");
    let words: Vec<&str> = line.split_whitespace().collect();
    let n: Vec<u64> = words.iter().take(3).map(|w| w.parse().expect("a number")).collect();
    let sum = Sum { h: 1, seen: None };
    match (&n[..], words.len()) {
        (&[mode @ 0..=1, balances @ 1..=32, rounds], 3) => println!("{}", run(mode, balances as u8, rounds, sum).h),
        (&[mode @ 0..=1, balances @ 1..=32, rounds], 4) => println!("{}", sum_only(mode, balances as u8, rounds)),
        _ => println!("?"),
    }
}
