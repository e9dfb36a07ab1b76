//! Where a session's fields stand in memory, as docs/LAYOUT.md says: its table is read here, so that the page is what
//! the two engines are compared through.

use std::sync::OnceLock;

const PAGE: &str = include_str!("../../../docs/LAYOUT.md");

/// The words that a session needs.
pub const WORDS: usize = 41_031;

/// Pre-slot j of task t is at place t * 16 + j.
pub const SLOTS: usize = 16;

macro_rules! fields {
    ($($name:ident)*) => {
        #[derive(Clone, Copy, Debug, PartialEq, Eq)]
        pub enum Field { $($name),* }

        impl Field {
            pub const ALL: [Field; [$(Field::$name),*].len()] = [$(Field::$name),*];

            fn name(self) -> &'static str {
                match self { $(Field::$name => stringify!($name)),* }
            }
        }
    };
}

fields! {
    Objects Links Dropped Kind TemplateState TemplateCount TaskState TaskCreator TaskSlots TaskFinish TaskOutput
    EventState EventType EventPayload EventTally BlockState BlockCreator BlockHeld SlotMode SlotMark SlotPayload
    LinkSource LinkTarget LinkSlot LinkState EventCount
}

/// A row of the page's table.
#[derive(Clone, Copy, Debug, PartialEq, Eq)]
pub struct Row {
    pub first: usize,
    pub places: usize,
}

impl Field {
    pub fn row(self) -> Row {
        static ROWS: OnceLock<Vec<Row>> = OnceLock::new();
        ROWS.get_or_init(|| Field::ALL.iter().map(|field| read_row(field.name())).collect())[self as usize]
    }

    /// The word of the field at a place.
    pub fn at(self, place: usize) -> usize {
        let row = self.row();
        assert!(place < row.places, "{self:?} has no place {place}");
        row.first + place
    }

    /// The field and place of a word.
    pub fn of(word: usize) -> (Field, usize) {
        let within = |field: &Field| (field.row().first..field.row().first + field.row().places).contains(&word);
        let field = Field::ALL.into_iter().find(within).expect("a word of the layout");
        (field, word - field.row().first)
    }
}

/// The row `| name | first word | places | ..` of the page.
fn read_row(name: &str) -> Row {
    let cells = |line: &'static str| line.split('|').map(str::trim).collect::<Vec<_>>();
    let number = |cell: &str| cell.replace(',', "").parse().expect("a number in docs/LAYOUT.md");
    let row = PAGE.lines().map(cells).find(|cells| cells.get(1) == Some(&name));
    let row = row.unwrap_or_else(|| panic!("docs/LAYOUT.md has no row for {name}"));
    Row { first: number(row[2]), places: number(row[3]) }
}

#[cfg(test)]
mod tests {
    use super::*;

    /// The rows cover the words from 0 to the number that the page gives, without a gap.
    #[test]
    fn the_page_is_whole() {
        let mut next = 0;
        for field in Field::ALL {
            assert_eq!(field.row().first, next, "{field:?}");
            next += field.row().places;
        }
        assert_eq!(next, WORDS);
        assert!(PAGE.contains(&format!("`WORDS {WORDS}`")));
        let is_row = |line: &&str| line.split('|').nth(2).is_some_and(|cell| cell.trim().starts_with(char::is_numeric));
        assert_eq!(PAGE.lines().filter(is_row).count(), Field::ALL.len(), "a row that is not read here");
    }
}
