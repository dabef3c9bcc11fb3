use std::error::Error;
use std::fmt;

use crate::calls::{CompileResult, LengthResult, PageResult, RunResult, SheetResult, StyleResult};
use crate::layout::{
    AGENT_TEXT, ATTRIBUTE_LIMIT, AUTHOR_TEXT, BAD_BYTES, BAD_LENGTH, BAD_ROW, BAD_TEXT, COMPILED_LIMIT, DEPTH_LIMIT, NO_ELEMENT, NO_REFUSAL, NO_ROOM,
    NODE_LIMIT, NOT_UTF8, PANIC, SHEET_LIMIT, SHORT_STORE, TEXT_LIMIT, TOO_LARGE, TOO_LONG, USER_TEXT,
};
use crate::style::Origin;

/// Why something was refused.
#[derive(Debug, Clone, Copy, PartialEq, Eq, Hash)]
#[non_exhaustive]
pub enum Reason {
    /// A sheet, or a compiled sheet, is over its limit.
    TooLong,
    /// A buffer lent to a call of [`calls`](crate::calls) is too short. What sizes its buffers itself never gives it.
    ShortStore,
    /// A sheet is not UTF-8.
    NotUtf8,
    /// A sheet has an nth-child number above 2147483647, on which html2text panics.
    Panic,
    /// A page is over a limit, or has a list that is no whole count of rows.
    TooLarge,
    /// A row of a page is against the rules; it may be too deep.
    BadRow,
    /// A name or value of a page ends beyond its text, or is not UTF-8.
    BadText,
    /// The row asked for is no element, or beyond the page.
    NoElement,
    /// Bytes are no compiled sheet.
    BadBytes,
    /// A height has one of the eight units, and has five or more decimals, is above 10,000 or is below zero.
    BadLength,
    /// A compiled sheet would be over its limit, or longer than its buffer.
    NoRoom,
    /// A number that the library gives and these bindings do not know.
    Unknown,
}

/// The call that refused, as far as a sentence tells them apart.
#[derive(Debug, Clone, Copy, PartialEq, Eq, Hash)]
enum Call {
    OneSheet,
    Height,
    ThreeSheets,
    Page,
    Run,
}

/// What is wrong with what a call was handed: a number, the text and the place that it is about, and a sentence for a person.
///
/// ```
/// use hicsolmab::{Origin, Reason, Sheets};
///
/// let sheets = Sheets { author: b"a:nth-child(2147483648){}", ..Sheets::default() };
/// let refusal = sheets.compile().unwrap_err();
/// assert_eq!(refusal.reason(), Reason::Panic);
/// assert_eq!(refusal.sheet(), Some(Origin::Author));
/// assert_eq!(refusal.place(), 12);
/// assert_eq!(refusal.to_string(), "the author sheet has an nth-child number above 2147483647 at byte 12");
/// ```
#[derive(Debug, Clone, Copy, PartialEq, Eq, Hash)]
pub struct Refusal {
    call: Call,
    number: u32,
    text: usize,
    place: usize,
}

impl Refusal {
    /// Its number, 1 to 10 or 12, as [`layout`](crate::layout) names them.
    #[must_use]
    pub const fn number(&self) -> u32 {
        self.number
    }

    /// The text that it is about: of [`Reason::Panic`] 0 for the agent sheet, 1 for the user sheet and 2 for the author sheet; otherwise 0.
    #[must_use]
    pub const fn text(&self) -> usize {
        self.text
    }

    /// The place, counted from 0: of [`Reason::Panic`] a byte of the sheet, of [`Reason::BadRow`] and [`Reason::BadText`] a row of the page, of
    /// [`Reason::BadBytes`] a byte of the compiled sheet, of [`Reason::BadLength`] the first byte of the number, its sign included; otherwise 0.
    #[must_use]
    pub const fn place(&self) -> usize {
        self.place
    }

    /// What its number stands for.
    #[must_use]
    pub const fn reason(&self) -> Reason {
        match self.number {
            TOO_LONG => Reason::TooLong,
            SHORT_STORE => Reason::ShortStore,
            NOT_UTF8 => Reason::NotUtf8,
            PANIC => Reason::Panic,
            TOO_LARGE => Reason::TooLarge,
            BAD_ROW => Reason::BadRow,
            BAD_TEXT => Reason::BadText,
            NO_ELEMENT => Reason::NoElement,
            BAD_BYTES => Reason::BadBytes,
            BAD_LENGTH => Reason::BadLength,
            NO_ROOM => Reason::NoRoom,
            _ => Reason::Unknown,
        }
    }

    /// Of [`Reason::Panic`], and a call with three sheets, which of them it is in.
    #[must_use]
    pub const fn sheet(&self) -> Option<Origin> {
        match (self.reason(), self.call, self.text) {
            (Reason::Panic, Call::ThreeSheets, AGENT_TEXT) => Some(Origin::Agent),
            (Reason::Panic, Call::ThreeSheets, USER_TEXT) => Some(Origin::User),
            (Reason::Panic, Call::ThreeSheets, AUTHOR_TEXT) => Some(Origin::Author),
            _ => None,
        }
    }

    /// A page that grows over a limit.
    pub(crate) const fn page_too_large() -> Self {
        Self { call: Call::Page, number: TOO_LARGE, text: 0, place: 0 }
    }

    /// A row that would be too deep.
    pub(crate) const fn row_too_deep(row: usize) -> Self {
        Self { call: Call::Page, number: BAD_ROW, text: 0, place: row }
    }
}

impl fmt::Display for Refusal {
    fn fmt(&self, f: &mut fmt::Formatter<'_>) -> fmt::Result {
        let place = self.place;
        let one = self.call == Call::OneSheet;
        let sheet = match self.sheet() {
            Some(Origin::Agent) => "the agent sheet",
            Some(Origin::User) => "the user sheet",
            Some(Origin::Author) => "the author sheet",
            None if one => "the sheet",
            None if self.call == Call::Height => "the height",
            None => "one of the sheets",
        };
        match self.reason() {
            Reason::TooLong if self.call == Call::Run => {
                write!(f, "the compiled sheet has more than {COMPILED_LIMIT} bytes")
            }
            Reason::TooLong => write!(f, "{sheet} has more than {SHEET_LIMIT} bytes"),
            Reason::ShortStore => write!(f, "a buffer lent to the call is shorter than its least length"),
            Reason::NotUtf8 => write!(f, "{sheet} is not UTF-8"),
            Reason::Panic => write!(f, "{sheet} has an nth-child number above {} at byte {place}", i32::MAX),
            Reason::TooLarge => write!(
                f,
                "the page has more than {NODE_LIMIT} nodes, {ATTRIBUTE_LIMIT} attributes or {TEXT_LIMIT} bytes of names and values, or a list that is no whole count of rows"
            ),
            Reason::BadRow => write!(f, "row {place} of the page is deeper than {DEPTH_LIMIT}, or does not follow on from the rows before it"),
            Reason::BadText => {
                write!(f, "a name or value in row {place} of the page ends beyond the page's text, or is not UTF-8")
            }
            Reason::NoElement => write!(f, "the row asked for is no element of the page"),
            Reason::BadBytes => write!(f, "the bytes are no compiled sheet: they cannot be read on from byte {place}"),
            Reason::BadLength => write!(f, "the number at byte {place} of the height has more than 4 decimals, is above 10000 or is below 0"),
            Reason::NoRoom => {
                write!(f, "the compiled sheet would have more than {COMPILED_LIMIT} bytes, or more than its buffer")
            }
            Reason::Unknown => write!(f, "the library refuses with a number that is not known here, {}", self.number),
        }
    }
}

impl Error for Refusal {}

/// The result itself where its number refuses nothing.
fn accepted<T>(result: T, call: Call, number: u32, text: usize, place: usize) -> Result<T, Refusal> {
    if number == NO_REFUSAL { Ok(result) } else { Err(Refusal { call, number, text, place }) }
}

impl SheetResult {
    /// The result where nothing is refused, and otherwise the refusal.
    ///
    /// # Errors
    ///
    /// What the call refused.
    pub fn accepted(self) -> Result<Self, Refusal> {
        accepted(self, Call::OneSheet, self.refusal, 0, self.place)
    }
}

impl LengthResult {
    /// The result where nothing is refused, and otherwise the refusal.
    ///
    /// # Errors
    ///
    /// What the call refused.
    pub fn accepted(self) -> Result<Self, Refusal> {
        accepted(self, Call::Height, self.refusal, 0, self.place)
    }
}

impl CompileResult {
    /// The result where nothing is refused, and otherwise the refusal.
    ///
    /// # Errors
    ///
    /// What the call refused.
    pub fn accepted(self) -> Result<Self, Refusal> {
        accepted(self, Call::ThreeSheets, self.refusal, self.text, self.place)
    }
}

impl PageResult {
    /// The result where nothing is refused, and otherwise the refusal.
    ///
    /// # Errors
    ///
    /// What the call refused.
    pub fn accepted(self) -> Result<Self, Refusal> {
        accepted(self, Call::Page, self.refusal, 0, self.place)
    }
}

impl StyleResult {
    /// The result where nothing is refused, and otherwise the refusal.
    ///
    /// # Errors
    ///
    /// What the call refused.
    pub fn accepted(self) -> Result<Self, Refusal> {
        accepted(self, Call::ThreeSheets, self.refusal, self.text, self.place)
    }
}

impl RunResult {
    /// The result where nothing is refused, and otherwise the refusal.
    ///
    /// # Errors
    ///
    /// What the call refused.
    pub fn accepted(self) -> Result<Self, Refusal> {
        accepted(self, Call::Run, self.refusal, 0, self.place)
    }
}
