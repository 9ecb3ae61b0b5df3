//! Refusals, and what their numbers say.

use std::error::Error;
use std::fmt;

/// A refusal: the number and the place that documents 01 and 02 give.
#[derive(Clone, Copy, PartialEq, Eq, Debug)]
pub struct Refusal {
    pub number: u64,
    pub place: u64,
}

impl Refusal {
    /// Whether a level sheet refused so overstates nobody's level.
    pub fn bounds_levels(self) -> bool {
        matches!(self.number, 20 | 21)
    }
}

/// In words that are true of every call that can answer the number; 3, 9, 11 and 12 name several things, and the call tells which. No call
/// answers 22 or 23: they are statuses of events.
impl fmt::Display for Refusal {
    fn fmt(&self, f: &mut fmt::Formatter) -> fmt::Result {
        let Refusal { number, place } = self;
        match number {
            1 => f.write_str("the table has no starts"),
            2 => f.write_str("there are more than 1,024 riders"),
            3 => f.write_str("there are more than 16,384 partners in all lists together, or the last start says so"),
            4 => write!(f, "start {place} is wrong: the first is 0, none is below the one before, the last is the number of links"),
            5 => write!(f, "rider {place} lists a number that is no rider's"),
            6 => write!(f, "rider {place} lists himself"),
            7 => write!(f, "the list of rider {place} is not strictly ascending"),
            8 => write!(f, "rider {place} lists a partner who does not list him"),
            9 => f.write_str("there is not one retained byte, or one house, for each rider, or the lists of events or of terms are not of one length"),
            10 => write!(f, "the retained byte of rider {place} is above 1"),
            11 => f.write_str("there are more than 4,096 events or more than 60 rounds, those of all houses together"),
            12 => f.write_str("a lent slice does not have its stated length, for a session's links 16,384, or is too small for the sheet"),
            13 => f.write_str("the sheet has not one level and one layer for each rider"),
            14 => write!(f, "the entry of rider {place} is not 65,535 and 0 though he is retained, or has layer 0 though he is not"),
            15 => write!(f, "{place} is no rider's number"),
            16 => write!(f, "rider {place} is retained already"),
            17 => f.write_str("the text has more than 65536 bytes"),
            18 => write!(f, "line {place} departs from the form, is missing, or is one too many"),
            19 => write!(f, "rider {place} of level k has fewer than k partners of level k or more"),
            20 => write!(f, "rider {place} of level k has more than k partners at or above his level and layer"),
            21 => write!(f, "rider {place} of level k has fewer than k + 1 partners at or above his level and the layer before his"),
            24 => f.write_str("there are more than 256 terms"),
            25 => write!(f, "term {place}, counted from 0, ends on its first day or before"),
            26 => f.write_str("the houses are not 1 to 16"),
            27 => write!(f, "the house of rider {place} is none of those that have a quota"),
            _ => write!(f, "{number} is no refusal's number"),
        }
    }
}

impl Error for Refusal {}
