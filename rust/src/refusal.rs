//! Refusals: number, place, plain words.
use std::error::Error;
use std::fmt;

/// Why an input is refused: one of the thirteen numbers, and where it shows.
///
/// It prints in plain words, with number and place behind them.
///
/// ```
/// let refused = bostuvrel::findings("1|2|0\n7|7|0\n").unwrap_err();
/// assert_eq!((refused.number(), refused.place()), (4, 1));
/// assert_eq!(refused.to_string(), "link 1 joins an AS to itself (refusal 4, place 1)");
/// ```
#[derive(Clone, Copy, Debug, PartialEq, Eq, PartialOrd, Ord, Hash)]
pub struct Refusal {
    number: u8,
    place: u32,
}

impl Refusal {
    pub(crate) fn new(number: u8, place: u32) -> Refusal {
        Refusal { number, place }
    }

    /// The refusal number, 1 to 13.
    pub fn number(self) -> u8 {
        self.number
    }

    /// Where it shows, as the number says:
    ///
    /// | number | place |
    /// |---|---|
    /// | 2 to 6 | the link, counted from 0 over the records, or over the lines that are no comments |
    /// | 8 | 0 for the output, 1 for the working room |
    /// | 9 | the line of the text, counted from 1, comments included |
    /// | 10 | the byte of the sheet, counted from 0 |
    /// | 11, 12 | the line of the sheet, counted from 0 |
    /// | 13 | the choice, counted from 0 |
    /// | 1, 7 | 0 |
    pub fn place(self) -> u32 {
        self.place
    }
}

impl fmt::Display for Refusal {
    fn fmt(&self, f: &mut fmt::Formatter<'_>) -> fmt::Result {
        let at = self.place;
        match self.number {
            1 => write!(f, "too much at once: more links, bytes, choices or deliveries than are taken"),
            2 => write!(f, "link {at} names AS 0, which no network has"),
            3 => write!(f, "link {at} has a relation that is neither peers nor provider to customer"),
            4 => write!(f, "link {at} joins an AS to itself"),
            5 => write!(f, "link {at} joins two ASes that an earlier link joins"),
            6 => write!(f, "link {at} brings in more ASes than are taken"),
            7 => write!(f, "no link names the destination"),
            8 if at == 1 => write!(f, "the working room is too short"),
            8 => write!(f, "the output is too short"),
            9 => write!(f, "line {at} of the text does not read as a link"),
            10 => write!(f, "the sheet's form is broken at byte {at}"),
            11 => write!(f, "line {at} of the sheet cannot stand for this network"),
            12 => write!(f, "line {at} of the sheet is not the best route that the other lines offer"),
            13 => write!(f, "choice {at} is no direction of a link"),
            other => write!(f, "refused for reason {other}"),
        }?;
        write!(f, " (refusal {}, place {at})", self.number)
    }
}

impl Error for Refusal {}
