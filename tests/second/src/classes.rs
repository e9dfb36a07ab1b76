//! Random class files.

use crate::edition::Edition;
use crate::number::{write_number, MAX_NUMBER};
use crate::random::Random;
use crate::sheet::MAX_SHEET;
use crate::sheets::{random_sheet_of, short_sheet};

/// What a class file is for; file i of a seed has theme i modulo their number.
#[derive(Clone, Copy, Debug, PartialEq, Eq)]
enum Theme {
    Plain,
    /// One sheet has 32,768 bytes.
    Full,
    /// Fewer sheets are announced than there are.
    Fewer,
    /// Any bytes after the last sheet.
    After,
    /// No sheets, perhaps bytes all the same.
    Nobody,
    /// A learner number lower than the one before it.
    Falls,
    /// More sheets are announced than there are.
    More,
    Cut,
    /// Cut at the start of a number or within it.
    CutNumber,
    NotShortest,
    AboveLimit,
    /// A number that goes on to the end of the file.
    Endless,
    /// A length above 32,768; the sheet may be as long as that.
    TooLong,
    PastEnd,
    Flipped,
}

/// Half of them end with sums.
const THEMES: [Theme; 24] = [
    Theme::Plain,
    Theme::CutNumber,
    Theme::Plain,
    Theme::NotShortest,
    Theme::Plain,
    Theme::Falls,
    Theme::Plain,
    Theme::TooLong,
    Theme::Fewer,
    Theme::More,
    Theme::Plain,
    Theme::AboveLimit,
    Theme::Plain,
    Theme::Cut,
    Theme::Full,
    Theme::PastEnd,
    Theme::Plain,
    Theme::Falls,
    Theme::Plain,
    Theme::Endless,
    Theme::After,
    Theme::NotShortest,
    Theme::Nobody,
    Theme::Flipped,
];

impl Theme {
    /// In how many cases of a hundred a learner falls: with a fault in the same entry, which comes before 23, in some.
    fn falls(self) -> u64 {
        match self {
            Theme::Falls => 100,
            Theme::CutNumber | Theme::Endless | Theme::NotShortest | Theme::AboveLimit => 40,
            Theme::TooLong | Theme::PastEnd => 40,
            _ => 0,
        }
    }

    fn sheets(self, random: &mut Random) -> u64 {
        match self {
            Theme::Nobody => 0,
            Theme::Plain => random.below(13),
            Theme::Fewer | Theme::Falls => 2 + random.below(11),
            _ => 1 + random.below(12),
        }
    }

    /// Which of the entries, of which there may be none, the theme changes.
    fn target(self, sheets: u64, random: &mut Random) -> usize {
        let last = sheets.saturating_sub(1);
        let target = match self {
            Theme::PastEnd => last,
            Theme::Falls if random.percent(30) => last,
            Theme::Falls => 1 + random.below(last),
            // Before the first entry there is nobody pending.
            _ if random.percent(15) => 0,
            _ => random.below(last + 1),
        };
        target as usize
    }
}

/// The bytes of a number or a sheet of a class file.
type Piece = Vec<u8>;

/// The place of the number of sheets among the pieces; the entries follow.
const COUNT: usize = 0;

/// The places of an entry's pieces, and how many they are.
const LEARNER: usize = 0;
const TURN: usize = 1;
const LENGTH: usize = 2;
const SHEET: usize = 3;
const ENTRY: usize = 4;

/// Class files of one seed.
pub struct Classes {
    seed: u64,
    /// Long sheets take long to draw, so the classes of a seed have theirs in common, some of each edition.
    pool: Vec<Vec<u8>>,
}

impl Classes {
    pub fn new(seed: u64) -> Classes {
        let edition = |index| if index < 40 { Edition::First } else { Edition::Second };
        Classes { seed, pool: (0..64).map(|index| random_sheet_of(edition(index), seed, index)).collect() }
    }

    /// Class file `index` of the seed: always the same bytes.
    pub fn class(&self, index: u64) -> Vec<u8> {
        // Sheets have the seed's parts from 0 up, so classes have those from the other end.
        let mut random = Random::part(self.seed, u64::MAX - 1 - index);
        let theme = THEMES[(index % THEMES.len() as u64) as usize];
        let sheets = theme.sheets(&mut random);
        let target = theme.target(sheets, &mut random);
        let mut learners = rising_learners(sheets, &mut random);
        if target > 0 && random.percent(theme.falls()) {
            fall(&mut learners, target, &mut random);
        }
        let mut pieces = self.pieces(&learners, &mut random);
        change(&mut pieces, theme, target, &mut random);
        let mut file = pieces.concat();
        change_bytes(&mut file, theme, &mut random);
        file
    }

    /// An entry for each of these learners.
    fn pieces(&self, learners: &[u64], random: &mut Random) -> Vec<Piece> {
        let mut pieces = vec![number(learners.len() as u64)];
        let short = random.among(&[100, 100, 80, 40]);
        for in_a_row in learners.chunk_by(|one, next| one == next) {
            for turn in turns(in_a_row.len(), random) {
                let sheet = self.sheet(short, random);
                pieces.extend([number(in_a_row[0]), number(turn), number(sheet.len() as u64), sheet]);
            }
        }
        pieces
    }

    /// So many sheets of a hundred are short ones.
    fn sheet(&self, short: u64, random: &mut Random) -> Vec<u8> {
        match random.below(20) {
            0 => vec![],
            _ if random.percent(short) => short_sheet(random),
            _ => self.pool[random.below(self.pool.len() as u64) as usize].clone(),
        }
    }
}

fn number(value: u64) -> Piece {
    let mut bytes = vec![];
    write_number(value, &mut bytes);
    bytes
}

/// A number below this bound as often as not, so that it comes again; else one of any width, its edges more often.
fn any_number(bound: u64, random: &mut Random) -> u64 {
    match random.below(10) {
        0..=4 => random.below(bound),
        5 => random.among(&[127, 128, 16_383, 16_384, 2_097_151, 2_097_152, 268_435_455, 268_435_456, MAX_NUMBER]),
        _ => random.draw() >> (32 + random.below(32)),
    }
}

/// Learners that rise or stay; how readily they stay is the class's own. In small classes they do it often, so that
/// somebody has two sheets there too.
fn rising_learners(sheets: u64, random: &mut Random) -> Vec<u64> {
    let again = if sheets < 5 { 75 } else { random.among(&[0, 40, 60, 80]) };
    let mut learners = vec![];
    for _ in 0..sheets {
        match learners.last() {
            Some(last) if random.percent(again) => learners.push(*last),
            _ => learners.push(any_number(8, random)),
        }
    }
    learners.sort();
    learners
}

/// Make a learner lower than the one before, often one that was there already.
fn fall(learners: &mut [u64], place: usize, random: &mut Random) {
    // Nobody is lower than learner 0.
    let before = learners[place - 1].max(1);
    learners[place - 1] = before;
    let mut lower: Vec<u64> = learners[..place].iter().copied().filter(|learner| *learner < before).collect();
    lower.extend([0, before - 1, random.below(before)]);
    learners[place] = random.among(&lower);
}

/// The turns of one learner's sheets: rising, falling, equal or mixed.
fn turns(sheets: usize, random: &mut Random) -> Vec<u64> {
    let mut turns: Vec<u64> = (0..sheets).map(|_| any_number(6, random)).collect();
    match random.below(4) {
        0 => turns.sort(),
        1 => turns.sort_by(|one, other| other.cmp(one)),
        2 => turns = vec![turns[0]; sheets],
        _ => (),
    }
    turns
}

/// Give the file what its theme asks for, piece by piece, in the entry that is the target.
fn change(pieces: &mut Vec<Piece>, theme: Theme, target: usize, random: &mut Random) {
    let sheets = (pieces.len() / ENTRY) as u64;
    let entry = 1 + ENTRY * target;
    match theme {
        Theme::Full => resize_sheet(&mut pieces[entry..], MAX_SHEET, random),
        Theme::Fewer => pieces[COUNT] = number(1 + random.below(sheets - 1)),
        Theme::More => pieces[COUNT] = number(more_than(sheets, MAX_NUMBER, random)),
        Theme::CutNumber => {
            let place = number_place(entry, random);
            pieces.truncate(place + 1);
            let kept = random.below(pieces[place].len() as u64);
            pieces[place].truncate(kept as usize);
        }
        Theme::Endless => {
            let place = number_place(entry, random);
            pieces.truncate(place);
            pieces.push(high_bytes(random));
        }
        Theme::NotShortest => {
            let place = number_place(entry, random);
            pieces[place] = not_shortest(&pieces[place], random);
        }
        Theme::AboveLimit => pieces[number_place(entry, random)] = above_limit(random),
        Theme::TooLong => too_long(&mut pieces[entry..], random),
        Theme::PastEnd => {
            let length = more_than(pieces[entry + SHEET].len() as u64, MAX_SHEET as u64, random);
            pieces[entry + LENGTH] = number(length);
        }
        _ => (),
    }
}

/// What themes ask for that keep to no piece.
fn change_bytes(file: &mut Vec<u8>, theme: Theme, random: &mut Random) {
    let length = file.len() as u64;
    match theme {
        Theme::Cut => file.truncate(random.below(length + 1) as usize),
        Theme::After | Theme::Nobody => file.extend((0..random.below(40)).map(|_| random.draw() as u8)),
        Theme::Flipped => {
            for _ in 0..1 + random.below(3) {
                // Early ones more often: the numbers between short sheets.
                let place = random.below(length) * random.below(length) / length;
                file[place as usize] ^= 1 << random.below(8);
            }
        }
        _ => (),
    }
}

/// One more, some more or the most there can be.
fn more_than(value: u64, most: u64, random: &mut Random) -> u64 {
    match random.below(4) {
        0 => most.max(value + 1),
        1 => value + 1,
        _ => value + 1 + random.below(20),
    }
}

/// The place of some number of the entry, seldom of the number of sheets.
fn number_place(entry: usize, random: &mut Random) -> usize {
    match random.below(12) {
        0 => COUNT,
        _ => entry + random.among(&[LEARNER, TURN, LENGTH]),
    }
}

/// Bytes that only go before the last byte of a number, often those that add nothing to it.
fn high_bytes(random: &mut Random) -> Vec<u8> {
    let most = random.among(&[1, 4, 6, 60]);
    let plain = random.percent(50);
    (0..1 + random.below(most)).map(|_| if plain { 128 } else { 128 | random.draw() as u8 }).collect()
}

fn not_shortest(number: &[u8], random: &mut Random) -> Vec<u8> {
    let mut bytes: Vec<u8> = number.iter().map(|byte| byte | 128).collect();
    if random.percent(40) {
        bytes.extend(vec![128; random.below(30) as usize]);
    }
    bytes.push(0);
    bytes
}

fn above_limit(random: &mut Random) -> Vec<u8> {
    let mut bytes = vec![];
    match random.below(4) {
        0 => write_number(MAX_NUMBER + 1, &mut bytes),
        1 => write_number(MAX_NUMBER + 1 + (random.draw() >> random.below(32)) / 2, &mut bytes),
        2 => bytes.extend([128, 128, 128, 128, 16 + random.below(112) as u8]),
        _ => {
            bytes.extend(vec![128; 5 + random.below(60) as usize]);
            bytes.push(1 + random.below(127) as u8);
        }
    }
    bytes
}

fn too_long(entry: &mut [Piece], random: &mut Random) {
    if random.percent(50) {
        return resize_sheet(entry, MAX_SHEET + 1 + random.among(&[0, 0, 1, 7_000]), random);
    }
    entry[LENGTH] = number(random.among(&[32_769, 32_770, 65_535, 65_536, 1 << 20, MAX_NUMBER]));
}

/// Make the sheet that long, and its length with it.
fn resize_sheet(entry: &mut [Piece], length: usize, random: &mut Random) {
    let sheet = &mut entry[SHEET];
    if sheet.is_empty() {
        sheet.push(1);
    }
    // Deliveries of links of the sheet, or of none.
    let link = random.below(4) as u8;
    let padding = [9, link].into_iter().cycle().take(length.saturating_sub(sheet.len()));
    sheet.extend(padding);
    entry[LENGTH] = number(length as u64);
}
