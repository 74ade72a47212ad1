//! Nothing is lost, whatever happens: weeks of one card on a simulated disk, cut at every single operation.
//!
//! Each evening the log has grown, and the records that the evening before has released are overwritten: exactly these. After
//! some evenings the log is trimmed, in its place. In the end the sheet is that of the plain evaluator on the untouched log. Some
//! weeks have service records.

mod disk;

use cli::card::{self, Begins, Card, Evening, Fault, First};
use cli::disk::Disk;
use cli::evenings::Known;
use cli::file::{self, Replaces};
use cli::followed::{Followed, Follower};
use cli::kept;
use cli::letters::Letters;
use cli::page::known::{self, Span};
use disk::{Simulated, Trouble, Way, Work};
use evaluator::log::{self, Record};
use evaluator::random::{self, Random};
use evaluator::{reading, rule};
use havdrims::save::checksum;
use havdrims::{Log, Refusal};

const NUMBER: u64 = 0x0123_4567_89ab_cdef;
const LOG: &str = "log.klg";
const ANY: Replaces = Replaces { any: true, other: None };

/// What is done with the log of an evening.
#[derive(Clone, Copy, Debug)]
struct Day {
    records: usize,
    closing: bool,
}

/// A command.
#[derive(Clone, Copy, Debug)]
enum Step {
    New,
    Evening(Day),
    /// The log takes the place of the one that it was.
    Trim(Day),
    /// The letters get other names.
    Name,
}

/// A rule, an untouched log, and how much of it is there on each evening. The last ones may be closings.
#[derive(Debug)]
struct Week {
    rule: Vec<u8>,
    untouched: Vec<Record>,
    /// The log's version.
    version: u16,
    days: Vec<Day>,
    /// The commands, from `new` on.
    steps: Vec<Step>,
    /// The card was made by an earlier program.
    old: bool,
    /// The card's first record: the log's records before it mean nothing.
    first: usize,
    /// The names of its letters when it is made.
    letters: Letters,
}

/// The names that the letters get later.
fn other_names() -> Letters {
    Letters::read("0 head warm\n31 test print\n").unwrap()
}

impl Week {
    fn new(r: &mut Random) -> Week {
        let (rule_shape, log_shape) = random::shapes(r, 8, 30);
        let rule = random::rule(r, rule_shape);
        let (version, untouched) = random::any_log(r, log_shape);
        let (old, later) = (r.one_in(4), r.one_in(3));
        let first = if later && !old { r.from_to(0, untouched.len()) } else { 0 };
        let mut ends: Vec<usize> = (0..r.from_to(1, 6)).map(|_| r.from_to(first, untouched.len())).collect();
        ends.sort();
        let last = ends[ends.len() - 1];
        let mut days: Vec<Day> = ends.into_iter().map(|records| Day { records, closing: false }).collect();
        days.extend((0..r.below(3)).map(|_| Day { records: last, closing: true }));
        let mut steps = vec![Step::New];
        for &day in &days {
            steps.push(Step::Evening(day));
            steps.extend((version == 2 && r.one_in(2)).then_some(Step::Trim(day)));
            steps.extend(r.one_in(4).then_some(Step::Name));
        }
        // Earlier programs knew no names.
        let names = if old || r.one_in(2) { "" } else { "3 lamp\n" };
        Week { rule, untouched, version, days, steps, old, first, letters: Letters::read(names).unwrap() }
    }

    /// The names in the end.
    fn names(&self) -> Letters {
        let named = self.steps.iter().any(|step| matches!(step, Step::Name));
        if named {
            other_names()
        } else {
            self.letters.clone()
        }
    }

    /// The positions of this day's log.
    fn positions(&self, day: Day) -> Vec<Record> {
        log::positions(self.version, &self.untouched[self.first..day.records])
    }

    /// The sheet after this day.
    fn sheet_of(&self, day: Day) -> Vec<u8> {
        let rule = rule::parse(&self.rule).unwrap();
        let verdicts = if day.closing { reading::closed_verdicts } else { reading::verdicts };
        verdicts(&rule, &self.positions(day))
    }

    /// The sheet in the end.
    fn sheet(&self) -> Vec<u8> {
        self.sheet_of(self.days[self.days.len() - 1])
    }
}

/// Why a command did not end well.
#[derive(Debug)]
enum Failed {
    Card(Fault),
    File(file::Fault),
}

impl From<Fault> for Failed {
    fn from(fault: Fault) -> Failed {
        Failed::Card(fault)
    }
}

/// A week as far as it went.
#[derive(Clone)]
struct Run<'a> {
    week: &'a Week,
    /// The card's folder.
    disk: Simulated,
    /// The folder with the kiosk's log: what was released is overwritten or dropped.
    shop: Simulated,
    /// The checksum of the record before the card's first one.
    before: Option<u64>,
    r: Random,
}

impl<'a> Run<'a> {
    fn new(week: &'a Week, seed: u64) -> Run<'a> {
        let mut r = Random::new(!seed);
        let mut before = vec![0; 8 * week.first];
        r.fill(&mut before);
        let last = before.last_chunk::<8>().map(|record| checksum(record));
        let shop = Simulated::with_file(seed + 1, LOG, &[log::header(week.version).to_vec(), before].concat());
        Run { week, disk: Simulated::new(seed), shop, before: last, r }
    }

    fn make(&mut self) -> Result<(), Fault> {
        let first = First { record: self.week.first as u64, position: self.week.first as u64 / 2 };
        // Half of the first day's records are known from the card before.
        let known = &self.week.untouched[self.week.first..(self.week.first + self.week.days[0].records).div_ceil(2)];
        let sum = checksum(&log::encode_records(known));
        let open = Known { records: known.len() as u64, sum };
        let before = self.before.filter(|_| known.is_empty());
        card::new(&mut self.disk, NUMBER, Begins { first, open, before }, &self.week.rule, &self.week.letters)
    }

    /// The log of this day: the kiosk has added its records.
    fn log(&mut self, day: Day) -> Vec<u8> {
        let there = log::parse(&self.shop.read(LOG).unwrap()).unwrap().total();
        if there < day.records {
            let new = log::encode_records(&self.week.untouched[there..day.records]);
            self.shop.change(LOG, |log| log.extend(new));
        }
        self.shop.read(LOG).unwrap()
    }

    fn evening(&mut self, day: Day) -> Result<Evening, Fault> {
        let log = self.log(day);
        Card::open(&mut self.disk, true)?.carry_on(day.closing, &log)
    }

    /// Puts what is left of the log in its place.
    fn trim(&mut self, day: Day) -> Result<(), Failed> {
        let log = self.log(day);
        let left = Card::open(&mut self.disk, true)?.trim(&log)?;
        file::put(&mut self.shop, LOG, &left, ANY).map_err(Failed::File)
    }

    fn name(&mut self) -> Result<(), Fault> {
        Card::open(&mut self.disk, true)?.name_letters(&other_names())
    }

    /// One command, not repeated. What an evening that ends well has released is overwritten.
    fn step(&mut self, step: Step) -> Result<(), Failed> {
        match step {
            Step::New => self.make()?,
            Step::Evening(day) => {
                let evening = self.evening(day)?;
                self.overwrite(&evening);
            }
            Step::Trim(day) => self.trim(day)?,
            Step::Name => self.name()?,
        }
        Ok(())
    }

    /// The command has ended well: what it released is overwritten.
    fn overwrite(&mut self, evening: &Evening) {
        let released = evening.so_far.released() as usize;
        let r = &mut self.r;
        self.shop.change(LOG, |log| {
            let log::Log { version, dropped, .. } = log::parse(log).unwrap();
            let from = if version == 3 { 16 } else { 8 };
            r.fill(&mut log[from..from + 8 * released.saturating_sub(dropped)]);
        });
    }

    /// Makes the card, or makes it again if the last time was cut after it was there.
    fn make_again(&mut self) {
        match self.make() {
            Ok(()) | Err(Fault::AlreadyThere) => self.make_old(),
            Err(fault) => panic!("{fault}: {:?}", self.week),
        }
    }

    /// What an earlier program would have made.
    fn make_old(&mut self) {
        if self.week.old {
            self.disk.change(card::CARD, |label| label.truncate(31));
            self.disk.take_away(card::EVENINGS);
        }
    }

    fn evening_again(&mut self, day: Day) {
        let evening = self.evening(day).unwrap_or_else(|fault| panic!("{fault}: {:?}", self.week));
        let services = day.records - self.week.first - self.week.positions(day).len();
        assert_eq!(evening.so_far.services, services as u64, "{:?}", self.week);
        self.overwrite(&evening);
    }

    /// What the card knows of this day's log: each of these records is as it was.
    fn known(&mut self, day: Day) -> Vec<Span> {
        let log = self.log(day);
        let mut card = Card::open(&mut self.disk, false).unwrap();
        let rows = card.evenings().unwrap();
        let seen = card.seen_part(&log).unwrap();
        let seen = Log::new(&seen).unwrap();
        let spans = known::spans(&seen, &rows);
        let own = &self.week.untouched[self.week.first..];
        let places = log::places(self.week.version, own);
        for span in &spans {
            let records = span.records.start as usize..span.records.end as usize;
            let bytes = log::encode_records(&own[records.clone()]);
            assert_eq!(seen.record_bytes(records), Some(&bytes[..]), "{:?}", self.week);
            for (position, held) in span.positions().zip(&span.held) {
                let record = places[position as usize];
                assert_eq!((held.record, held.seconds), (record as u64, own[record].time), "{:?}", self.week);
            }
            let services = bytes.len() as u64 / 8 - span.held.len() as u64;
            assert_eq!(span.services.len() as u64, services, "{:?}", self.week);
        }
        spans
    }

    fn trim_again(&mut self, day: Day) {
        self.trim(day).unwrap_or_else(|fault| panic!("{fault:?}: {:?}", self.week));
        let left = log::parse(&self.shop.read(LOG).unwrap()).unwrap();
        let so_far = Card::open(&mut self.disk, false).unwrap().so_far;
        assert_eq!((left.dropped as u64, left.total()), (so_far.released(), day.records), "{:?}", self.week);
    }

    fn again(&mut self, step: Step) {
        match step {
            Step::New => self.make_again(),
            Step::Evening(day) => self.evening_again(day),
            Step::Trim(day) => self.trim_again(day),
            Step::Name => self.name().unwrap_or_else(|fault| panic!("{fault}: {:?}", self.week)),
        }
    }

    /// This will go wrong at one of the next operations: of a trimming, those on the card come before those on the log.
    fn prepare(&mut self, step: Step, operation: usize, trouble: Trouble) {
        let mut on_card = usize::MAX;
        if let Step::Trim(_) = step {
            let mut tried = self.clone();
            let _ = tried.step(step);
            on_card = tried.disk.operations - self.disk.operations;
        }
        match operation.checked_sub(on_card) {
            None => self.disk.trouble = Some((self.disk.operations + operation, trouble)),
            Some(operation) => self.shop.trouble = Some((self.shop.operations + operation, trouble)),
        }
    }

    fn was_cut(&self) -> bool {
        self.disk.was_cut() || self.shop.was_cut()
    }

    /// What is left after a cut.
    fn cut(&mut self, way: Way) {
        self.disk.cut(way);
        self.shop.cut(way);
    }

    /// The sheet as a program finds it after the power was cut once more.
    fn sheet(&mut self) -> Vec<u8> {
        self.cut(Way::Synced);
        Card::open(&mut self.disk, false).unwrap().verdicts().to_vec()
    }

    /// The names of letters, which are never damaged.
    fn letters(&mut self) -> Letters {
        Card::open(&mut self.disk, false).and_then(|mut card| card.letters()).unwrap()
    }
}

/// The week with one run cut at one of its operations: `new` is the first run. False if the run has fewer operations.
fn with_cut(week: &Week, which: usize, operation: usize, work: Work, way: Way, seed: u64) -> bool {
    let mut run = Run::new(week, seed);
    let mut cut = false;
    for (at, &step) in week.steps.iter().enumerate() {
        if at == which {
            run.prepare(step, operation, Trouble::Cut(work));
            let ended = run.step(step).is_ok();
            cut = run.was_cut();
            assert_eq!(ended, !cut);
            run.cut(way);
            // A trimming need not be repeated: the log is as it was, or trimmed.
            if cut && matches!(step, Step::Trim(_)) && operation.is_multiple_of(2) {
                continue;
            }
            // The names are those that were there, or the others.
            if matches!(step, Step::Name) {
                assert!([&week.letters, &other_names()].contains(&&run.letters()), "{week:?}");
            }
        }
        run.again(step);
    }
    let where_ = || format!("run {which}, operation {operation}, {work:?}, {way:?}, seed {seed}: {week:?}");
    assert_eq!(run.sheet(), week.sheet(), "{}", where_());
    assert_eq!(run.letters(), week.names(), "{}", where_());
    cut
}

#[test]
fn a_cut_at_every_operation() {
    let (mut cuts, mut trims) = (0, 0);
    for seed in 0..60 {
        let week = Week::new(&mut Random::new(seed));
        for (which, step) in week.steps.iter().enumerate() {
            for (way, times) in [(Way::Synced, 1), (Way::Killed, 1), (Way::Part, 3)] {
                for work in [Work::Nothing, Work::Part, Work::All] {
                    for again in 0..times {
                        let cut = |&operation: &usize| with_cut(&week, which, operation, work, way, again);
                        let some = (0..).take_while(cut).count();
                        let least = if matches!(step, Step::Name) { 4 } else { 6 };
                        assert!(some >= least, "a run of {some} operations");
                        cuts += some;
                        trims += if matches!(step, Step::Trim(_)) { some } else { 0 };
                    }
                }
            }
        }
    }
    println!("{cuts} cuts, {trims} of them of a trimming");
    assert!(trims > 0);
}

/// The point is lost after a cut: the rows vouch for all verdicts that it counted, and for none that is wrong, and they tell from
/// which record on another card can go on, none of which was overwritten.
fn without_its_point(run: &Run) -> Option<bool> {
    let mut disk = run.disk.clone();
    let counted = Card::open(&mut disk, false).ok().map(|card| (card.verdicts().len(), card.so_far.wanted()))?;
    disk.change(card::POINT, |point| point.clear());
    let kept = kept::kept(&mut disk)?;
    assert!(kept.verdicts.len() >= counted.0, "{:?}", run.week);
    assert!(run.week.sheet().starts_with(&kept.verdicts), "{:?}", run.week);
    let Some(Begins { first: First { record, position }, .. }) = kept.after else { return Some(false) };
    assert!(record >= counted.1, "{:?}", run.week);
    let log = log::parse(&run.shop.clone().read(LOG).unwrap()).unwrap();
    let (from, untouched) = (record as usize, &run.week.untouched);
    assert_eq!(log.records[from - log.dropped..], untouched[from..log.total()], "{:?}", run.week);
    let before = log::positions(run.week.version, &untouched[run.week.first..from]).len();
    assert_eq!(position as usize, run.week.first / 2 + before, "{:?}", run.week);
    Some(true)
}

#[test]
fn a_sheet_outlives_its_point() {
    let (mut lost, mut gone_on) = (0, 0);
    for seed in 0..60 {
        let week = Week::new(&mut Random::new(seed));
        let mut run = Run::new(&week, seed);
        for &step in &week.steps {
            for (way, work) in [(Way::Synced, Work::All), (Way::Killed, Work::Part), (Way::Part, Work::Part)] {
                for operation in 0.. {
                    let mut tried = run.clone();
                    tried.prepare(step, operation, Trouble::Cut(work));
                    let ended = tried.step(step);
                    tried.cut(way);
                    if let Some(known) = without_its_point(&tried) {
                        lost += 1;
                        gone_on += usize::from(known);
                    }
                    if ended.is_ok() {
                        assert!(week.old || without_its_point(&tried) == Some(true), "{week:?}");
                        break;
                    }
                }
            }
            run.again(step);
        }
    }
    println!("{lost} points lost, {gone_on} of them with a record to go on at");
    assert!(lost > gone_on && gone_on > 1_000);
}

/// Cuts one after the other: a run is repeated until it is not cut, and the power is cut between runs too. After a run that was
/// cut the log may be trimmed before it is repeated.
#[test]
fn many_cuts_in_one_week() {
    let (mut cuts, mut between) = (0, 0);
    for seed in 0..3_000 {
        let week = Week::new(&mut Random::new(seed));
        let mut run = Run::new(&week, seed);
        let mut r = Random::new(seed + 1_000_000);
        let mut cut_short = |run: &mut Run, r: &mut Random, step: Step| {
            let work = r.pick(&[Work::Nothing, Work::Part, Work::All]);
            let operation = r.clone().below(r.pick(&[6, 12, 30]));
            run.prepare(step, operation, Trouble::Cut(work));
            let ended = run.step(step);
            if run.was_cut() {
                cuts += 1;
                run.cut(r.pick(&[Way::Synced, Way::Part, Way::Killed]));
                return None;
            }
            (run.disk.trouble, run.shop.trouble) = (None, None);
            Some(ended)
        };
        for (at, &step) in week.steps.iter().enumerate() {
            loop {
                match cut_short(&mut run, &mut r, step) {
                    Some(Ok(()) | Err(Failed::Card(Fault::AlreadyThere))) => break,
                    None => {}
                    // A `new` that was killed before its last sync, and then a cut: nothing was given yet.
                    Some(Err(Failed::Card(Fault::NoCard | Fault::Unfinished))) if at == 1 => run.make_again(),
                    Some(Err(fault)) => panic!("{fault:?}: {week:?}"),
                }
                let (Step::Evening(day) | Step::Trim(day)) = step else { continue };
                if r.one_in(2) {
                    match cut_short(&mut run, &mut r, Step::Trim(day)) {
                        Some(Ok(())) => between += 1,
                        None | Some(Err(Failed::Card(Fault::Refused(Refusal::TrimVersion)))) => {}
                        Some(Err(Failed::Card(Fault::NoCard | Fault::Unfinished))) if at == 1 => {}
                        Some(Err(fault)) => panic!("{fault:?}: {week:?}"),
                    }
                    if r.one_in(2) {
                        run.cut(Way::Synced);
                    }
                }
            }
            if r.one_in(2) {
                run.cut(Way::Synced);
            }
            if at == 0 && run.disk.contents().contains_key(card::POINT) {
                run.make_old();
            }
        }
        assert_eq!(run.sheet(), week.sheet(), "seed {seed}: {week:?}");
        assert_eq!(run.letters(), week.names(), "seed {seed}: {week:?}");
    }
    println!("{cuts} cuts, {between} trimmings after one");
    assert!(between > 1_000);
}

/// A disk that is full, that takes no more writes, or that fails when the work is done, at every operation of an evening:
/// if the checkpoint was not touched the card is as it was, and in any case the evening is repeated.
#[test]
fn a_failure_at_every_operation() {
    let (mut failures, mut not_sure) = (0, 0);
    for seed in 0..40 {
        let week = Week::new(&mut Random::new(seed));
        for trouble in [Trouble::Full, Trouble::Late, Trouble::Broken] {
            let mut run = Run::new(&week, seed);
            run.make_again();
            for &day in &week.days {
                for operation in 0.. {
                    let log = run.log(day);
                    let mut disk = run.disk.clone();
                    disk.trouble = Some((disk.operations + operation, trouble));
                    let before = disk.contents();
                    match Card::open(&mut disk, true).unwrap().carry_on(day.closing, &log) {
                        Ok(_) => break,
                        Err(Fault::Disk { .. }) if trouble == Trouble::Broken => {
                            assert_eq!(disk.contents()[card::POINT], before[card::POINT]);
                        }
                        Err(Fault::Disk { .. }) => assert_eq!(disk.contents(), before),
                        Err(Fault::Unsure { .. }) => not_sure += 1,
                        Err(fault) => panic!("{fault}"),
                    }
                    failures += 1;
                    disk.trouble = None;
                    let mut again = Run { disk, ..run.clone() };
                    again.evening_again(day);
                    assert_eq!(again.sheet(), week.sheet_of(day), "{trouble:?} at {operation}, seed {seed}: {week:?}");
                }
                run.evening_again(day);
            }
            assert_eq!(run.sheet(), week.sheet(), "seed {seed}: {week:?}");
        }
    }
    println!("{failures} failures, {not_sure} of them when the checkpoint may have been replaced");
    assert!(failures > 0 && not_sure > 0);
}

/// The same in a trimming: the card is as it was, and so is the log, unless it may have been replaced. Whatever is there, the next
/// evening takes it.
#[test]
fn a_failure_at_every_operation_of_trim() {
    let (mut failures, mut not_sure) = (0, 0);
    for seed in 0..40 {
        let week = Week::new(&mut Random::new(seed));
        if week.version == 1 {
            continue;
        }
        for trouble in [Trouble::Full, Trouble::Late, Trouble::Broken] {
            let mut run = Run::new(&week, seed);
            run.make_again();
            for (at, &day) in week.days.iter().enumerate() {
                run.evening_again(day);
                let next = week.days.get(at + 1).copied().unwrap_or(day);
                for operation in 0.. {
                    let mut tried = run.clone();
                    let before = (tried.disk.contents(), tried.shop.contents());
                    tried.prepare(Step::Trim(day), operation, trouble);
                    match tried.trim(day) {
                        Ok(()) => break,
                        Err(Failed::Card(Fault::Disk { .. })) => assert_eq!(tried.shop.contents(), before.1),
                        // What was written beside stays if it cannot be taken away.
                        Err(Failed::File(file::Fault::Disk { .. })) if trouble == Trouble::Broken => {
                            assert_eq!(tried.shop.contents()[LOG], before.1[LOG]);
                        }
                        Err(Failed::File(file::Fault::Disk { .. })) => assert_eq!(tried.shop.contents(), before.1),
                        Err(Failed::File(file::Fault::Unsure { .. })) => not_sure += 1,
                        Err(fault) => panic!("{fault:?}"),
                    }
                    assert_eq!(tried.disk.contents(), before.0);
                    failures += 1;
                    (tried.disk.trouble, tried.shop.trouble) = (None, None);
                    if operation % 2 == 0 {
                        tried.trim_again(day);
                    }
                    tried.evening_again(next);
                    assert_eq!(tried.sheet(), week.sheet_of(next), "{trouble:?} at {operation}, seed {seed}: {week:?}");
                }
                run.trim_again(day);
            }
        }
    }
    println!("{failures} failures, {not_sure} of them when the log may have been replaced");
    assert!(failures > 0 && not_sure > 0);
}

/// The same in `new`: it is repeated, and the first evening has its verdicts, though the power is cut after it.
#[test]
fn a_failure_at_every_operation_of_new() {
    let (mut failures, mut made) = (0, 0);
    for seed in 0..40 {
        let week = Week::new(&mut Random::new(seed));
        for trouble in [Trouble::Full, Trouble::Late, Trouble::Broken] {
            for operation in 0.. {
                let mut run = Run::new(&week, seed);
                run.disk.trouble = Some((operation, trouble));
                match run.make() {
                    Ok(()) => break,
                    Err(Fault::Disk { .. }) => {}
                    Err(Fault::MadeUnsure(_)) => made += 1,
                    Err(fault) => panic!("{fault}"),
                }
                failures += 1;
                run.disk.trouble = None;
                run.make_again();
                run.evening_again(week.days[0]);
                assert_eq!(
                    run.sheet(),
                    week.sheet_of(week.days[0]),
                    "{trouble:?} at {operation}, seed {seed}: {week:?}"
                );
            }
        }
    }
    println!("{failures} failures, {made} of them when the card was made");
    assert!(failures > 0 && made > 0);
}

/// A disk that fails at every operation of naming letters: the names are the old ones, or may be the new ones, and nothing else changes.
#[test]
fn a_failure_at_every_operation_of_naming() {
    let (mut failures, mut not_sure) = (0, 0);
    for seed in 0..40 {
        let week = Week::new(&mut Random::new(seed));
        for trouble in [Trouble::Full, Trouble::Late, Trouble::Broken] {
            for operation in 0.. {
                let mut run = Run::new(&week, seed);
                run.make_again();
                let before = run.disk.contents();
                run.disk.trouble = Some((run.disk.operations + operation, trouble));
                match run.name() {
                    Ok(()) => break,
                    // What was written beside stays if it cannot be taken away.
                    Err(Fault::Disk { .. }) if trouble == Trouble::Broken => {
                        assert_eq!(run.disk.contents().get(card::LETTERS), before.get(card::LETTERS));
                    }
                    Err(Fault::Disk { .. }) => assert_eq!(run.disk.contents(), before),
                    Err(Fault::Unsure { .. }) => not_sure += 1,
                    Err(fault) => panic!("{fault}"),
                }
                failures += 1;
                run.disk.trouble = None;
                assert!([&week.letters, &other_names()].contains(&&run.letters()), "{week:?}");
                run.name().unwrap();
                run.evening_again(week.days[0]);
                assert_eq!(run.sheet(), week.sheet_of(week.days[0]), "{week:?}");
                assert_eq!(run.letters(), other_names());
            }
        }
    }
    assert!(failures > 0 && not_sure > 0);
}

/// That another card goes on from one is written down there, cut or failing at every operation: it is there as a whole or not at all,
/// the others that were there stay, and the card's own verdicts are as they were.
#[test]
fn a_cut_and_a_failure_at_every_operation_of_following() {
    let troubles = [Trouble::Full, Trouble::Late, Trouble::Broken];
    let cuts = [Work::Nothing, Work::Part, Work::All].map(Trouble::Cut);
    let (first, second) = (Follower::new("strict", 12), Follower::new("third", 17));
    let one = Followed::default().with(first.clone());
    let two = one.clone().with(second.clone());
    let (mut tried, mut written) = (0, 0);
    for seed in 0..20 {
        let week = Week::new(&mut Random::new(seed));
        for (&trouble, way) in troubles
            .iter()
            .chain(&cuts)
            .flat_map(|trouble| [Way::Synced, Way::Killed, Way::Part].map(|way| (trouble, way)))
        {
            for operation in 0.. {
                let mut run = Run::new(&week, seed);
                run.make_again();
                run.evening_again(week.days[0]);
                card::follow(&mut run.disk, first.clone()).unwrap();
                run.disk.trouble = Some((run.disk.operations + operation, trouble));
                let ended = card::follow(&mut run.disk, second.clone());
                run.disk.trouble = None;
                run.cut(way);
                let found = Card::open(&mut run.disk, false).and_then(|mut card| card.followed()).unwrap();
                assert!(
                    found == two || ended.is_err() && found == one,
                    "{trouble:?} at {operation}, {way:?}: {week:?}"
                );
                assert_eq!(run.sheet(), week.sheet_of(week.days[0]), "{week:?}");
                if ended.is_ok() {
                    break;
                }
                tried += 1;
                written += usize::from(found == two);
                card::follow(&mut run.disk, second.clone()).unwrap();
                run.cut(Way::Synced);
                assert_eq!(Card::open(&mut run.disk, false).and_then(|mut card| card.followed()).unwrap(), two);
            }
        }
    }
    println!("{tried} cuts and failures, {written} of them when it was written");
    assert!(tried > written && written > 0);
}

/// A `new` that was cut may have had names; made again without, the card has none.
#[test]
fn names_of_a_card_that_was_cut() {
    let week = (0..).map(|seed| Week::new(&mut Random::new(seed))).find(|week| !week.letters.is_empty()).unwrap();
    let bare =
        (0..).map(|seed| Week::new(&mut Random::new(seed))).find(|week| week.letters.is_empty() && !week.old).unwrap();
    let bare = Week { first: week.first, ..bare };
    let mut left = 0;
    for operation in 0.. {
        let mut run = Run::new(&week, 0);
        run.prepare(Step::New, operation, Trouble::Cut(Work::All));
        if run.make().is_ok() {
            break;
        }
        run.cut(Way::Killed);
        if run.disk.contents().contains_key(card::POINT) {
            continue;
        }
        left += usize::from(run.disk.contents().contains_key(card::LETTERS));
        let mut again = Run { disk: run.disk, ..Run::new(&bare, 0) };
        again.make().unwrap();
        again.cut(Way::Synced);
        assert_eq!(again.letters(), Letters::default());
        assert!(!again.disk.contents().contains_key(card::LETTERS));
    }
    assert!(left > 0);
}

/// Which records of its log a card knows: before any is overwritten all that it has seen; and then none that was, and each position
/// has its record.
#[test]
fn what_a_card_knows_of_its_log() {
    let (mut known, mut lost) = (0, 0);
    for seed in 0..1_000 {
        let week = Week { old: false, ..Week::new(&mut Random::new(seed)) };
        let mut run = Run::new(&week, seed);
        let mut untouched = true;
        for &step in &week.steps {
            if let Step::Evening(day) = step {
                let evening = run.evening(day).unwrap();
                let spans = run.known(day);
                let seen = evening.so_far.status.seen;
                let all: u64 = spans.iter().map(|span| span.records.end - span.records.start).sum();
                assert!(!untouched || all == seen, "{all} of {seen}: {week:?}");
                run.overwrite(&evening);
                untouched = untouched && evening.so_far.released() <= week.first as u64;
                let left: u64 = run.known(day).iter().map(|span| span.records.end - span.records.start).sum();
                known += left;
                lost += seen - left;
                continue;
            }
            untouched = untouched && !matches!(step, Step::Trim(_));
            run.again(step);
        }
    }
    assert!(known > 1_000 && lost > 1_000, "{known} known, {lost} lost");
}

/// A file that is written in place of another, and one that is new, cut at every operation, and with each of them failing: it is the
/// old one or the new one, and once this has ended well it survives a cut. In place of another it has its mode at every moment, and one
/// that may not be written is replaced all the same.
#[test]
fn a_cut_at_every_operation_of_a_file() {
    let (old, new) = (vec![1; 40], vec![2; 60]);
    let mut runs = 0;
    for there in [true, false] {
        let before = there.then(|| old.clone());
        let left = |disk: &Simulated| {
            let mode = if there { disk::OWN } else { disk::MADE };
            assert!(disk.mode(LOG).is_none_or(|own| own == mode));
            disk.contents().get(LOG).cloned()
        };
        for work in [Work::Nothing, Work::Part, Work::All] {
            let troubles = [Trouble::Cut(work), Trouble::Full, Trouble::Late, Trouble::Broken];
            for (trouble, way, seed) in troubles.into_iter().flat_map(|trouble| {
                [Way::Synced, Way::Killed, Way::Part, Way::Part]
                    .into_iter()
                    .zip(0..)
                    .map(move |(way, at)| (trouble, way, at))
            }) {
                for operation in 0.. {
                    let mut disk = Simulated::with_file(seed, if there { LOG } else { "other" }, &old);
                    disk.trouble = Some((operation, trouble));
                    let ended = file::put(&mut disk, LOG, &new, Replaces { any: there, other: None });
                    disk.trouble = None;
                    disk.cut(way);
                    let found = left(&disk);
                    if ended.is_ok() {
                        assert_eq!(found, Some(new.clone()));
                        break;
                    }
                    assert!(found == before || found == Some(new.clone()), "{trouble:?} at {operation}, {way:?}");
                    file::put(&mut disk, LOG, &new, ANY).unwrap();
                    disk.cut(Way::Synced);
                    assert_eq!(left(&disk), Some(new.clone()));
                    runs += 1;
                }
            }
        }
    }
    assert!(runs > 100, "{runs}");
}
