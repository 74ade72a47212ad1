//! The simulated kiosk against the reference written from the paper.

use crate::calls::side;
use crate::guard::{Lent, Side};
use crate::runner::{cases, Counts};
use evaluator::kiosk::{self, Settings, Simulated};
use evaluator::random::Random;
use evaluator::{cases as worked, log, model, rule};
use havdrims::ffi;

/// What stands behind the last pointers before a call.
const KEPT: [u64; 4] = [0x1111_2222_3333_4444, 0x5555_6666_7777_8888, 0x9999_AAAA_BBBB_CCCC, 0xDDDD_EEEE_FFFF_0000];

/// havdrims_simulate on a guarded buffer with these bytes: what it gave, once it is sure that all else was kept.
fn call(settings: Settings, seconds: u32, seed: u32, buffer: &[u8], side: Side) -> Result<Simulated, u32> {
    let mut lent = Lent::new(buffer.len());
    lent.place(buffer, side);
    let [mut written, mut finished, mut printing, mut waiting] = KEPT;
    // SAFETY: the buffer is lent for writing, the numbers are this function's own.
    let number = unsafe {
        ffi::havdrims_simulate(
            seconds,
            settings.warm_up,
            settings.print_time,
            settings.switch_off,
            settings.mean_gap,
            seed,
            lent.pointer(),
            lent.length(),
            &mut written,
            &mut finished,
            &mut printing,
            &mut waiting,
        )
    };
    assert!(lent.surroundings_kept(), "simulate wrote outside the log buffer");
    if number != 0 {
        assert_eq!([written, finished, printing, waiting], KEPT, "refusal {number} wrote its numbers");
        assert_eq!(lent.bytes(), buffer, "refusal {number} changed the log buffer");
        return Err(number);
    }
    let end = written as usize;
    assert_eq!(lent.bytes()[end..], buffer[end..], "simulate changed the buffer behind the log");
    Ok(Simulated { log: lent.bytes()[..end].to_vec(), finished, printing, waiting })
}

fn compare(settings: Settings, seconds: u32, seed: u32, buffer: &[u8], side: Side) -> Result<Simulated, u32> {
    let expected = kiosk::simulate(settings, seconds, seed, buffer.len());
    let given = call(settings, seconds, seed, buffer, side);
    assert_eq!(given, expected, "{settings:?}, {seconds} seconds, seed {seed}, {} bytes", buffer.len());
    given
}

/// "After every second the three sum to the arrivals counted from the log", and the log is one that carry on accepts.
fn whole(simulated: &Simulated) {
    let records = log::parse(&simulated.log).expect("a log without fault").records;
    let arrivals = records.iter().filter(|record| record.letters >> 2 & 1 == 1).count() as u64;
    assert_eq!(simulated.finished + simulated.printing + simulated.waiting, arrivals);
    assert!(records.iter().enumerate().all(|(at, record)| record.time as usize == at));
    let p1 = rule::encode(&worked::p1_entries());
    let mut point = vec![0; model::measure(&p1).unwrap().0 as usize];
    havdrims::open(&p1, &mut point).unwrap();
    havdrims::resume(&p1, &simulated.log, &mut point, &mut []).unwrap();
}

#[test]
fn random_kiosks() {
    let body = |r: &mut Random, counts: &mut Counts| {
        let most = r.pick(&[2, 5, 40, 600]);
        let idle = r.pick(&[most, 3600]);
        let gap = r.pick(&[2, 5, 40, 3600]);
        let settings = Settings {
            warm_up: r.from_to(1, most) as u32,
            print_time: r.from_to(1, most) as u32,
            switch_off: r.from_to(1, idle) as u32,
            mean_gap: r.from_to(1, gap) as u32,
        };
        let longest = r.pick(&[3, 60, 3600]);
        let seconds = r.from_to(0, longest) as u32;
        let seed = r.draw() as u32;
        let mut buffer = vec![0; 8 + 8 * seconds as usize + r.below(20)];
        r.fill(&mut buffer);
        let given = compare(settings, seconds, seed, &buffer, side(r));
        counts.returned(*given.as_ref().err().unwrap_or(&0));
        if let Ok(simulated) = given {
            whole(&simulated);
            counts.add("prints finished", simulated.finished as usize);
            let went_off = log::parse(&simulated.log).unwrap().records;
            let went_off = went_off.windows(2).filter(|pair| pair[0].letters & 1 > pair[1].letters & 1);
            counts.add("heads gone off", went_off.count());
        }
    };
    let seen = |counts: &Counts| counts.get("prints finished") > 0 && counts.get("heads gone off") > 0;
    cases("random_kiosks", 3_000, body, seen);
}

fn settings(numbers: [u32; 4]) -> Settings {
    let [warm_up, print_time, switch_off, mean_gap] = numbers;
    Settings { warm_up, print_time, switch_off, mean_gap }
}

#[test]
fn ends_of_all_ranges() {
    for which in 0..16 {
        let end = |at: usize, high: u32| if which >> at & 1 == 1 { high } else { 1 };
        let numbers = [end(0, 600), end(1, 600), end(2, 3600), end(3, 3600)];
        for (seconds, seed) in [(0, 1), (1, u32::MAX), (3600, 1), (3600, u32::MAX)] {
            let buffer = vec![0xC3; 8 + 8 * seconds as usize];
            whole(&compare(settings(numbers), seconds, seed, &buffer, Side::Right).unwrap());
        }
    }
}

#[test]
fn each_fault_of_26() {
    let good = [1, 1, 1, 1];
    let fault = |numbers: [u32; 4], seconds: u32, seed: u32, room: usize| {
        assert_eq!(compare(settings(numbers), seconds, seed, &vec![0xC3; room], Side::Right), Err(26));
    };
    for (at, high) in [600, 600, 3600, 3600].into_iter().enumerate() {
        for wrong in [0, high + 1, u32::MAX] {
            let mut numbers = good;
            numbers[at] = wrong;
            fault(numbers, 2, 1, 24);
        }
    }
    fault(good, 3601, 1, 8 + 8 * 3601);
    fault(good, u32::MAX, 1, 100);
    fault(good, 2, 0, 24);
    for (seconds, room) in [(0, 0), (0, 7), (1, 8), (1, 15), (3600, 28_807)] {
        fault(good, seconds, 1, room);
    }
    assert!(compare(settings(good), 2, 1, &[0; 24], Side::Left).is_ok());
}
