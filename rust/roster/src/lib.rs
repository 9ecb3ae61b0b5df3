//! The roster: from a text to an answer sheet, or to a refusal in plain words; and the size of an accepted text's pool.

mod table;

use planner::{Refusal, Size};
use std::fmt;
use table::Table;

/// The most a text may have; one byte more is refused.
pub const LONGEST_TEXT: usize = 65536;

/// Room for the longest sheet: 60 rounds over 1,024 riders.
pub const LONGEST_SHEET: usize = 60 * (48 + 1024);

#[derive(Clone, PartialEq, Eq, Debug)]
pub enum Answer {
    Sheet(Vec<u8>),
    Refused(Refusal),
}

/// The planner's answer to a text.
pub fn answer(text: &[u8]) -> Answer {
    let mut sheet = vec![0; LONGEST_SHEET];
    match planner::text_to_sheet(text, &mut sheet) {
        Ok(length) => {
            sheet.truncate(length);
            Answer::Sheet(sheet)
        }
        Err(refusal) => Answer::Refused(refusal),
    }
}

/// The size of the pool of a text that the planner has accepted. Its call for texts does not answer it, so the text's table is handed to
/// the check of a table.
pub fn size_of_accepted(text: &[u8]) -> Size {
    let Table { starts, links } = Table::of_accepted(text);
    planner::check(&starts, &links).expect("the table of an accepted text is sound")
}

/// The size of a pool, as a line.
pub fn told_of_size(Size { edges, max_degree }: Size) -> String {
    format!("Pairs: {edges}. Most partners of one rider: {max_degree}.")
}

/// A sheet as it is; a refusal as one sentence.
impl fmt::Display for Answer {
    fn fmt(&self, f: &mut fmt::Formatter) -> fmt::Result {
        match *self {
            Answer::Sheet(ref sheet) => f.write_str(&String::from_utf8_lossy(sheet)),
            Answer::Refused(refusal @ Refusal { number, place }) => {
                write!(f, "Refused, number {number}, place {place}: {}.", said_of_text(refusal))
            }
        }
    }
}

/// The refusal's own words; for 3, 11, 12 and 15, which are wider because other calls have them too, those that fit a text.
fn said_of_text(refusal: Refusal) -> String {
    match refusal.number {
        3 => "there are more than 16,384 partners in all lists together".into(),
        11 => "there are more than 60 rounds".into(),
        12 => "the room for the sheet is too small".into(),
        15 => format!("{} is retained and is no rider's number", refusal.place),
        _ => refusal.to_string(),
    }
}

#[cfg(test)]
mod tests {
    use super::*;

    #[test]
    fn sentences() {
        let say = |number, place| Answer::Refused(Refusal { number, place }).to_string();
        let sentences = [
            (2, 0, "there are more than 1,024 riders"),
            (3, 0, "there are more than 16,384 partners in all lists together"),
            (5, 7, "rider 7 lists a number that is no rider's"),
            (6, 7, "rider 7 lists himself"),
            (7, 7, "the list of rider 7 is not strictly ascending"),
            (8, 12, "rider 12 lists a partner who does not list him"),
            (11, 0, "there are more than 60 rounds"),
            (12, 0, "the room for the sheet is too small"),
            (15, 40, "40 is retained and is no rider's number"),
            (17, 0, "the text has more than 65536 bytes"),
            (18, 3, "line 3 departs from the form, is missing, or is one too many"),
        ];
        for (number, place, words) in sentences {
            assert_eq!(say(number, place), format!("Refused, number {number}, place {place}: {words}."));
        }
        let size = Size { edges: 5000, max_degree: 31 };
        assert_eq!(Answer::Sheet(b"(round 01".to_vec()).to_string(), "(round 01");
        assert_eq!(told_of_size(size), "Pairs: 5000. Most partners of one rider: 31.");
        assert_eq!(LONGEST_SHEET, 64320);
    }
}
