//! Random sheets.

use crate::edition::Edition;
use crate::random::Random;
use crate::record::write_record;
use crate::sheet::MAX_SHEET;
use crate::steer::{Goal, Reach, Steer};

/// What a sheet is for; sheet i of a seed has theme i modulo their number.
#[derive(Clone, Copy, Debug, PartialEq, Eq)]
enum Theme {
    Short,
    Middle,
    Long,
    Families,
    Objects,
    Links,
    /// A whole sheet, cut at a random byte.
    Cut,
    /// A whole sheet, some bytes of it turned.
    Flipped,
    /// A number longer than needed, or an unknown code, behind good records.
    Spoilt,
    /// A first number that is not that of the edition.
    First,
}

const THEMES: [Theme; 16] = [
    Theme::Middle,
    Theme::Short,
    Theme::Objects,
    Theme::Families,
    Theme::Cut,
    Theme::Links,
    Theme::Middle,
    Theme::Flipped,
    Theme::Long,
    Theme::Spoilt,
    Theme::Families,
    Theme::First,
    Theme::Short,
    Theme::Middle,
    Theme::Cut,
    Theme::Flipped,
];

/// Sheet `index` of a seed, of edition 1: always the same bytes, at most 32,768 of them.
pub fn random_sheet(seed: u64, index: u64) -> Vec<u8> {
    random_sheet_of(Edition::First, seed, index)
}

/// The same of either edition.
pub fn random_sheet_of(edition: Edition, seed: u64, index: u64) -> Vec<u8> {
    themed_sheet(edition, Random::part(seed, index), THEMES[index as usize % THEMES.len()])
}

/// A sheet of less than 60 bytes or so, in two cases of five with a fault: a class has room for many of them. Two of
/// five are of edition 2.
pub fn short_sheet(random: &mut Random) -> Vec<u8> {
    let mut own = Random::new(random.draw());
    let edition = if own.percent(40) { Edition::Second } else { Edition::First };
    let mut sheet = themed_sheet(edition, own, Theme::Short);
    if random.percent(40) {
        let theme = random.among(&[Theme::Cut, Theme::Flipped, Theme::Spoilt, Theme::First]);
        spoil(&mut sheet, edition, theme, random);
    }
    sheet
}

fn themed_sheet(edition: Edition, mut random: Random, theme: Theme) -> Vec<u8> {
    let (goal, length) = match theme {
        Theme::Short => (Goal::Nothing, random.below(60)),
        Theme::Long => (Goal::Nothing, MAX_SHEET as u64 - random.below(40)),
        Theme::Families => (Goal::Families, 200 + random.below(6_000)),
        Theme::Objects => (Goal::Objects, 4_000 + random.below(6_000)),
        Theme::Links => (Goal::Links, 20_000 + random.below(12_000)),
        _ => (Goal::Nothing, 200 + random.below(6_000)),
    };
    let mut sheet = vec![edition.number() as u8];
    fill(&mut sheet, edition, Random::new(random.draw()), goal, length as usize);
    spoil(&mut sheet, edition, theme, &mut random);
    sheet.truncate(MAX_SHEET);
    sheet
}

/// Records behind the first number, as long as they fit.
fn fill(sheet: &mut Vec<u8>, edition: Edition, random: Random, goal: Goal, length: usize) {
    // A record takes some five bytes.
    let mut steer = Steer::new(random, Reach::Records, goal, length as u64 / 5).in_edition(edition);
    while sheet.len() < length {
        let (operation, _) = steer.next_call();
        match write_record(&operation, edition.number()) {
            Ok(record) if sheet.len() + record.len() <= length => sheet.extend(record),
            _ => break,
        }
    }
}

/// Give the sheet the faults of its theme.
fn spoil(sheet: &mut Vec<u8>, edition: Edition, theme: Theme, random: &mut Random) {
    let length = sheet.len() as u64;
    match theme {
        Theme::Cut => sheet.truncate(random.below(length + 1) as usize),
        Theme::Flipped => {
            for _ in 0..1 + random.below(4) {
                // Late ones more often, so that much of the sheet still runs.
                let place = length - 1 - random.below(length) * random.below(length) / length;
                sheet[place as usize] ^= 1 << random.below(8);
            }
        }
        Theme::Spoilt => sheet.extend_from_slice(bad_record(edition, random)),
        Theme::First => {
            sheet.remove(0);
            let first = bad_first(edition, random);
            sheet.splice(0..0, first.iter().copied());
        }
        _ => (),
    }
}

/// A record that ends a sheet of edition 1; of edition 2, where 14 is the first code that is not known.
fn bad_record(edition: Edition, random: &mut Random) -> &'static [u8] {
    match (edition, random.among(&BAD_RECORDS)) {
        (Edition::Second, [13, ..]) => &[14, 2, 1],
        (_, record) => record,
    }
}

/// Not the number of the edition. Sheets of edition 1 with the first number 2 were bad ones once, and run as sheets of
/// edition 2 now.
fn bad_first(edition: Edition, random: &mut Random) -> &'static [u8] {
    match (edition, random.among(&BAD_FIRSTS)) {
        (Edition::Second, [2]) => &[3],
        (Edition::Second, [129, 0]) => &[130, 0],
        (_, first) => first,
    }
}

const BAD_RECORDS: [&[u8]; 14] = [
    &[0],
    &[13, 2, 1],
    &[128, 0, 2],
    &[137, 0, 1],
    &[9, 129, 0],
    &[9, 128, 128, 128, 128, 16],
    &[9, 255, 255, 255, 255, 15],
    &[9, 128, 128, 128, 128, 128, 128],
    &[9, 128, 128, 128, 128, 128, 128, 1],
    &[12, 130, 0, 128],
    &[2, 2, 3, 17],
    &[5, 128, 0, 2, 3, 0],
    &[255, 255, 255, 255, 15],
    &[128, 128, 128, 128, 16],
];

const BAD_FIRSTS: [&[u8]; 6] = [&[2], &[0], &[129, 0], &[129, 1], &[128], &[128, 128, 128, 128, 16]];
