//! A class report through the library, part by part, as a caller from C takes it.

use crate::Memory;
use second::number::write_number;

/// Words that say where a report stands; at 7 in the first nothing is left.
pub const CLASS_WORDS: usize = 18;
pub const NOTHING: u64 = 7;

/// The report of a class file, from words that are 0 until nothing is left, put behind what `out` has.
pub fn report(memory: &mut Memory, file: &[u8], lines: &mut [u8], out: &mut Vec<u8>) {
    let mut state = [0; CLASS_WORDS];
    while state[0] != NOTHING {
        let (refused, used) = memory.class(file, &mut state, lines);
        assert_eq!(refused, 0, "too little memory");
        out.extend_from_slice(&lines[..used]);
    }
}

/// The class file of some sheets, with learners from 1 up, each in its first turn.
pub fn class_of(sheets: &[Vec<u8>]) -> Vec<u8> {
    turns_of(&sheets.iter().map(|sheet| vec![(1, sheet.clone())]).collect::<Vec<_>>())
}

/// The class file of learners from 1 up, each with some turns and their sheets, in that order.
pub fn turns_of(learners: &[Vec<(u64, Vec<u8>)>]) -> Vec<u8> {
    let mut file = vec![];
    write_number(learners.iter().map(Vec::len).sum::<usize>() as u64, &mut file);
    for (turns, learner) in learners.iter().zip(1..) {
        for (turn, sheet) in turns {
            [learner, *turn, sheet.len() as u64].iter().for_each(|number| write_number(*number, &mut file));
            file.extend_from_slice(sheet);
        }
    }
    file
}
