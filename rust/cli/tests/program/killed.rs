//! The program killed at random moments, and repeated: in the end the sheet is that of the evaluator.

use crate::{Place, CARRY_ON};
use evaluator::log::{self, Record};
use evaluator::random::{self, LogShape, Random};
use evaluator::{linear, rule};
use std::fs;
use std::os::unix::process::ExitStatusExt;
use std::process::Stdio;
use std::thread;
use std::time::{Duration, Instant};

/// Looks back, looks ahead, and has a checkpoint of some thousand words; and another formula beside it.
const NEW: [&str; 4] =
    ["new", "card", "prev[0,9] e0 or e1 until[0,900] (e2 or prev[0,99] prev[0,99] e3)", "e3 since[0,60] not e0"];

/// Runs the command, and kills it after this time if it has not ended. Whether it was killed; else it ended well.
fn run_for(place: &Place, words: &[&str], time: Duration) -> bool {
    let mut child = place.program().args(words).stdout(Stdio::null()).stderr(Stdio::null()).spawn().unwrap();
    thread::sleep(time);
    let _ = child.kill();
    let ended = child.wait().unwrap();
    let killed = ended.signal() == Some(9);
    assert!(killed || ended.success(), "{ended}");
    killed
}

#[test]
fn killed_at_random_moments() {
    const KILLS: usize = 300;
    let mut r = Random::new(1);
    let place = Place::new();
    let shape = LogShape { records: 60_000, letters: 4, hold: 20, step: 2, start: 7 };
    let untouched: Vec<Record> = random::log(&mut r, shape);
    let mut file = log::encode(&untouched);
    place.ok(&NEW);
    let bytes = fs::read(place.path("card/rule.krl")).unwrap();
    let parsed = rule::parse(&bytes).unwrap();
    let (mut killed, mut evening, mut closings, mut records) = (0, 0, 0, 0);
    let mut longest = Duration::from_millis(20);
    while killed < KILLS {
        evening += 1;
        records = (records + r.from_to(0, 400)).min(untouched.len());
        let closing = r.one_in(10);
        fs::write(place.path("log.klg"), &file[..8 + 8 * records]).unwrap();
        let words = [CARRY_ON[usize::from(closing)], &["card", "log.klg"]].concat();
        // Killed some times, at any moment up to the time that a whole run takes.
        for _ in 0..r.from_to(1, 8) {
            let moment = longest.mul_f64(r.below(1_000) as f64 / 1_000.0);
            killed += usize::from(run_for(&place, &words, moment));
        }
        let begun = Instant::now();
        let said = place.ok(&words);
        longest = begun.elapsed();
        let released = said.lines().last().unwrap();
        if let Some(last) = released.strip_prefix("records 0 to ") {
            let last: usize = last.split(' ').next().unwrap().parse().unwrap();
            file[8..8 + 8 * (last + 1)].fill(0xFF);
        }
        let verdicts = if closing { linear::closed_verdicts } else { linear::verdicts };
        let expected = verdicts(&parsed, &untouched[..records]);
        assert_eq!(fs::read(place.path("card/sheet")).unwrap(), expected, "evening {evening}");
        if closing {
            closings += 1;
            // Another month, with the same log from its beginning.
            fs::remove_dir_all(place.path("card")).unwrap();
            place.ok(&NEW);
            (file, records) = (log::encode(&untouched), 0);
        }
    }
    println!("{killed} kills in {evening} evenings, {closings} of them closings");
    assert!(closings > 0);
}
