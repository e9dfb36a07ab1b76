//! Random class files: their reports made the other way, by one pass, and what they bring up.

use second::class::{count_sheet, listed, read_entries, report, superseding, Entry};
use second::classes::Classes;
use second::random::Random;
use second::record::read_number;
use second::{parse_sheet, Session};

const FILES: u64 = 600;

fn reported(file: &[u8]) -> String {
    let mut out = vec![];
    report(file, &mut out);
    String::from_utf8(out).unwrap()
}

/// A report by one pass: the sheet that counts so far is pending until another learner or the end comes.
#[derive(Default)]
struct Pass<'a> {
    rest: &'a [u8],
    /// The learner of the entry that is being read, once that number is read.
    begun: Option<u64>,
    /// Learner, turn and sheet.
    pending: Option<(u64, u64, &'a [u8])>,
    lines: String,
    sums: [u64; 4],
}

impl<'a> Pass<'a> {
    /// The whole file; the stop if there is one. Who is pending is not printed yet.
    fn read(&mut self) -> Result<(), u32> {
        for _ in 0..self.number()? {
            self.begun = None;
            self.entry()?;
        }
        Ok(())
    }

    fn number(&mut self) -> Result<u64, u32> {
        let (value, used) = read_number(self.rest)?;
        self.rest = &self.rest[used..];
        Ok(value)
    }

    fn entry(&mut self) -> Result<(), u32> {
        let learner = self.number()?;
        self.begun = Some(learner);
        let (turn, length) = (self.number()?, self.number()?);
        if length > 32_768 || length > self.rest.len() as u64 {
            return Err(22);
        }
        let (sheet, rest) = self.rest.split_at(length as usize);
        self.rest = rest;
        match self.pending {
            Some((before, ..)) if learner < before => return Err(23),
            Some((before, highest, kept)) if learner == before => {
                self.pending = Some((learner, turn.max(highest), superseding(kept, highest, sheet, turn)));
            }
            _ => {
                self.print_pending();
                self.pending = Some((learner, turn, sheet));
            }
        }
        Ok(())
    }

    fn print_pending(&mut self) {
        if let Some((learner, turn, sheet)) = self.pending {
            let tally = count_sheet(sheet);
            let counts = [tally.records, tally.refused, tally.starts, tally.dropped];
            for (sum, count) in self.sums.iter_mut().zip(counts) {
                *sum += count;
            }
            self.lines += &format!("{learner} {turn} {}\n", joined(counts));
        }
    }
}

fn joined(counts: [u64; 4]) -> String {
    counts.map(|count| count.to_string()).join(" ")
}

fn one_pass(file: &[u8]) -> String {
    let mut pass = Pass { rest: file, ..Pass::default() };
    let end = pass.read();
    pass.print_pending();
    let last = match end {
        Ok(()) => joined(pass.sums),
        Err(stop) => format!("stop {stop}"),
    };
    format!("class 1\n{}{last}\n", pass.lines)
}

/// The report, which chooses by the whole list, is what one pass gives.
#[test]
fn reports_by_one_pass() {
    for seed in [8, 9] {
        let classes = Classes::new(seed);
        for index in 0..FILES {
            let file = classes.class(index);
            assert_eq!(reported(&file), one_pass(&file), "class file {index} of seed {seed}");
        }
    }
}

fn is_superseded(entry: &Entry, entries: &[Entry]) -> bool {
    entries.iter().any(|other| other.supersedes(entry))
}

/// An entry is listed exactly if no other one supersedes it.
#[track_caller]
fn check_listed(entries: &[Entry]) {
    let by_definition: Vec<&Entry> = entries.iter().filter(|entry| !is_superseded(entry, entries)).collect();
    assert_eq!(listed(entries), by_definition);
}

/// The same entries as another file would have them, in any order.
fn shuffle(entries: &mut [Entry], random: &mut Random) {
    for place in (0..entries.len()).rev() {
        entries.swap(place, random.below(place as u64 + 1) as usize);
        entries[place].place = place as u64;
    }
}

/// The entries of files, and the same ones where 23 would stop a file.
#[test]
fn listed_by_the_definition() {
    let (classes, mut random) = (Classes::new(8), Random::new(8));
    let mut falling = 0;
    for index in 0..FILES {
        let file = classes.class(index);
        let mut entries = vec![];
        let _ = read_entries(&file, &mut entries);
        check_listed(&entries);
        shuffle(&mut entries, &mut random);
        check_listed(&entries);
        falling += u64::from(!entries.is_sorted_by_key(|entry| entry.learner));
    }
    assert!(falling >= FILES / 3, "{falling}");
}

/// More entries than a random file has: one of each learner, several, all of one.
#[test]
fn long_lists_by_the_definition() {
    let mut random = Random::new(9);
    for (learners, turns) in [(u64::MAX, 3), (300, 5), (300, u64::MAX), (1, 5)] {
        let mut entry = |place| Entry { place, learner: random.below(learners), turn: random.below(turns), sheet: &[] };
        let mut entries: Vec<Entry> = (0..2_000).map(&mut entry).collect();
        check_listed(&entries);
        entries.sort_by_key(|entry| entry.learner);
        (0..).zip(&mut entries).for_each(|(place, entry)| entry.place = place);
        check_listed(&entries);
    }
}

/// In how many class files each of these comes up.
#[derive(Debug, Default)]
struct Shown {
    sums: u64,
    /// By the stop: 3, 4, 22, 23.
    with_nobody: [u64; 4],
    with_a_learner: [u64; 4],
    /// The entry that stops is of the learner pending; its learner is lower than that one.
    by_the_same: [u64; 4],
    by_a_lower: [u64; 4],
    /// The learner that falls was there before, with another one since.
    again: u64,
    /// A sheet superseded at all, by a later one of a higher turn or of the same, by an earlier one.
    superseded: u64,
    by_higher: u64,
    by_equal: u64,
    by_earlier: u64,
    /// A superseded sheet whose counts are others than the superseding one's.
    counts_differ: u64,
    /// Learner 0 with turn 0 comes first.
    zeros: u64,
    /// By the number of sheets listed.
    listed: [u64; 9],
    /// Sheets of both editions are listed; one that makes a counted event is.
    both_editions: u64,
    counted: u64,
}

fn makes_counted(sheet: &[u8]) -> bool {
    let mut session = Session::fresh();
    parse_sheet(sheet).0.iter().any(|operation| session.apply(operation).refused == 0 && operation.code == 13)
}

const STOPS: [u32; 4] = [3, 4, 22, 23];

impl Shown {
    fn count(&mut self, file: &[u8]) {
        let mut entries = vec![];
        match read_entries(file, &mut entries) {
            Ok(()) => self.sums += 1,
            Err(stop) => self.count_stop(file, stop, &entries),
        }
        self.count_superseded(&entries);
        self.zeros += u64::from(entries.first().is_some_and(|first| (first.learner, first.turn) == (0, 0)));
        let listed = reported(file).lines().count() - 2;
        self.listed[listed.min(8)] += 1;
        self.count_editions(&entries);
    }

    fn count_editions(&mut self, entries: &[Entry]) {
        let counting = listed(entries);
        let begins = |edition| counting.iter().any(|entry| entry.sheet.first() == Some(&edition));
        self.both_editions += u64::from(begins(1) && begins(2));
        self.counted += u64::from(counting.iter().any(|entry| makes_counted(entry.sheet)));
    }

    fn count_stop(&mut self, file: &[u8], stop: u32, entries: &[Entry]) {
        let place = STOPS.iter().position(|known| *known == stop).unwrap();
        let Some(pending) = entries.last() else {
            self.with_nobody[place] += 1;
            return;
        };
        self.with_a_learner[place] += 1;
        let mut pass = Pass { rest: file, ..Pass::default() };
        assert_eq!(pass.read(), Err(stop));
        self.by_the_same[place] += u64::from(pass.begun == Some(pending.learner));
        self.by_a_lower[place] += u64::from(pass.begun.is_some_and(|begun| begun < pending.learner));
        self.again += u64::from(stop == 23 && entries.iter().any(|entry| pass.begun == Some(entry.learner)));
    }

    fn count_superseded(&mut self, entries: &[Entry]) {
        let any = |holds: &dyn Fn(&Entry, &Entry) -> bool| {
            let superseded = |entry: &Entry| entries.iter().any(|other| other.supersedes(entry) && holds(entry, other));
            u64::from(entries.iter().any(superseded))
        };
        self.superseded += any(&|_, _| true);
        self.by_higher += any(&|entry, other| other.place > entry.place && other.turn > entry.turn);
        self.by_equal += any(&|entry, other| other.place > entry.place && other.turn == entry.turn);
        self.by_earlier += any(&|entry, other| other.place < entry.place);
        self.counts_differ +=
            any(&|entry, other| !is_superseded(other, entries) && count_sheet(entry.sheet) != count_sheet(other.sheet));
    }
}

#[test]
fn what_random_classes_show() {
    let classes = Classes::new(8);
    let mut shown = Shown::default();
    (0..FILES).for_each(|index| shown.count(&classes.class(index)));
    println!("{shown:#?}");
    let Shown { sums, with_nobody, with_a_learner, by_the_same, by_a_lower, .. } = shown;
    assert!((FILES * 9 / 20..=FILES * 13 / 20).contains(&sums));
    assert!(with_nobody[..3].iter().all(|count| *count >= 15) && with_nobody[3] == 0);
    assert!(with_a_learner.iter().all(|count| *count >= 40));
    assert!(by_the_same[..3].iter().all(|count| *count >= 5));
    assert!(by_a_lower.iter().all(|count| *count >= 5) && shown.again >= 10);
    let superseded = [shown.by_higher, shown.by_equal, shown.by_earlier, shown.counts_differ];
    assert!(superseded.iter().all(|count| *count >= FILES / 5));
    assert!(shown.zeros >= 5 && shown.listed.iter().all(|count| *count > 0));
    assert!(shown.both_editions >= FILES / 5 && shown.counted >= FILES / 10);
}

#[test]
fn a_seed_gives_the_same_classes() {
    let (classes, again) = (Classes::new(8), Classes::new(8));
    assert!((0..FILES).all(|index| again.class(index) == classes.class(index)));
}

/// tests/random_classes.py cuts and changes these files at every byte, so most of them should have somebody superseded.
#[test]
fn short_classes_to_cut() {
    let classes = Classes::new(20_261_116);
    let files = (0..FILES).map(|index| classes.class(index)).filter(|file| (60..=120).contains(&file.len()));
    let mut superseded = vec![];
    for file in files.take(4) {
        let mut entries = vec![];
        let _ = read_entries(&file, &mut entries);
        superseded.push(entries.iter().filter(|entry| is_superseded(entry, &entries)).count());
    }
    assert!(superseded.len() == 4 && superseded.iter().filter(|count| **count > 0).count() >= 3, "{superseded:?}");
}
