//! Where each number stands: in the rows of a page, in a style row, and in the refusals.
//!
//! Who uses [`Page`](crate::Page) and [`Style`](crate::Style) needs none of these. They are for callers that make rows themselves or hand them on, through
//! [`calls`](crate::calls). `include/hicsolmab.h` has the same names for C, with `HICSOLMAB_` before them.

// ---- refusals

/// Nothing is refused.
pub const NO_REFUSAL: u32 = 0;
/// A sheet or compiled bytes over their limit.
pub const TOO_LONG: u32 = 1;
/// A slice shorter than its least length.
pub const SHORT_STORE: u32 = 2;
/// A sheet that is not UTF-8.
pub const NOT_UTF8: u32 = 3;
/// A sheet has an nth-child number on which html2text panics.
pub const PANIC: u32 = 4;
/// A page over a limit, or a list that is no whole count of rows.
pub const TOO_LARGE: u32 = 5;
/// A node row against the rules.
pub const BAD_ROW: u32 = 6;
/// A name or value of a page that cannot be read.
pub const BAD_TEXT: u32 = 7;
/// The row asked for is no element, or beyond the page.
pub const NO_ELEMENT: u32 = 8;
/// Bytes that are no compiled sheet.
pub const BAD_BYTES: u32 = 9;
/// A height with one of the eight units that is too fine, above 10,000 or below zero.
pub const BAD_LENGTH: u32 = 12;
/// The compiled sheet would exceed its buffer or its limit.
pub const NO_ROOM: u32 = 10;

/// The text of [`PANIC`] in the agent sheet.
pub const AGENT_TEXT: usize = 0;
/// The text of [`PANIC`] in the user sheet.
pub const USER_TEXT: usize = 1;
/// The text of [`PANIC`] in the author sheet.
pub const AUTHOR_TEXT: usize = 2;

// ---- lengths

/// The value is no length.
pub const NO_LENGTH: u32 = 0;
/// A length in units, of which a pixel has 3,810,000.
pub const UNIT_LENGTH: u32 = 1;
/// A length in ten-thousandths of an `em`.
pub const EM_LENGTH: u32 = 2;
/// A length in ten-thousandths of an `ex`.
pub const EX_LENGTH: u32 = 3;

// ---- limits

/// Bytes of each sheet.
pub const SHEET_LIMIT: usize = 32768;
/// Bytes of a compiled sheet.
pub const COMPILED_LIMIT: usize = 65536;
/// Node rows of a page.
pub const NODE_LIMIT: usize = 4096;
/// Attribute rows of a page.
pub const ATTRIBUTE_LIMIT: usize = 16384;
/// Bytes of all names and values of a page.
pub const TEXT_LIMIT: usize = 65536;
/// The depth of a node, of which the document's is 0.
pub const DEPTH_LIMIT: usize = 64;

// ---- a node row

/// The node's kind.
pub const NODE_KIND: usize = 0;
/// The row of its parent.
pub const NODE_PARENT: usize = 1;
/// The byte of the text where its name starts.
pub const NODE_NAME_START: usize = 2;
/// The bytes of its name.
pub const NODE_NAME_LENGTH: usize = 3;
/// Its first attribute row.
pub const NODE_FIRST_ATTRIBUTE: usize = 4;
/// How many attribute rows it has.
pub const NODE_ATTRIBUTE_COUNT: usize = 5;
/// The numbers of a node row.
pub const NODE_WIDTH: usize = 6;

/// The kind of row 0, the document.
pub const DOCUMENT: u32 = 0;
/// The kind of an element.
pub const ELEMENT: u32 = 1;
/// The kind of every other node: a text, a comment, a doctype.
pub const OTHER: u32 = 2;

// ---- an attribute row

/// The byte of the text where the attribute's name starts.
pub const ATTRIBUTE_NAME_START: usize = 0;
/// The bytes of its name.
pub const ATTRIBUTE_NAME_LENGTH: usize = 1;
/// The byte of the text where its value starts.
pub const ATTRIBUTE_VALUE_START: usize = 2;
/// The bytes of its value.
pub const ATTRIBUTE_VALUE_LENGTH: usize = 3;
/// The numbers of an attribute row.
pub const ATTRIBUTE_WIDTH: usize = 4;

// ---- a style row

/// The record of the element itself.
pub const MAIN: usize = 0;
/// The record of its `::before`.
pub const BEFORE: usize = 1;
/// The record of its `::after`.
pub const AFTER: usize = 2;
/// The records of a style row.
pub const RECORD_COUNT: usize = 3;

/// The slot of `color`.
pub const COLOUR_SLOT: usize = 0;
/// The slot of `background-color`.
pub const BACKGROUND_SLOT: usize = 1;
/// The slot of `display`, which is filled where nothing is displayed.
pub const DISPLAY_SLOT: usize = 2;
/// The slot of `white-space`.
pub const WHITE_SPACE_SLOT: usize = 3;
/// The slot of `content`.
pub const CONTENT_SLOT: usize = 4;
/// The slot of `visibility`, which html2text does not have.
pub const VISIBILITY_SLOT: usize = 5;
/// The slots of a record.
pub const SLOT_COUNT: usize = 6;

/// `white-space: normal`.
pub const WHITE_SPACE_NORMAL: u32 = 0;
/// `white-space: pre`.
pub const WHITE_SPACE_PRE: u32 = 1;
/// `white-space: pre-wrap`.
pub const WHITE_SPACE_PRE_WRAP: u32 = 2;

/// `visibility: visible`.
pub const VISIBILITY_VISIBLE: u32 = 0;
/// `visibility: hidden`.
pub const VISIBILITY_HIDDEN: u32 = 1;

/// Whether a slot is filled.
pub const SLOT_FILLED: usize = 0;
/// The origin of the declaration that won.
pub const SLOT_ORIGIN: usize = 1;
/// Whether it stands in an attribute.
pub const SLOT_INLINE: usize = 2;
/// The ids that its selector names.
pub const SLOT_ID: usize = 3;
/// The classes, attributes and `:nth-child()` that its selector names.
pub const SLOT_CLASS: usize = 4;
/// The element names that its selector names.
pub const SLOT_TYPE: usize = 5;
/// Whether it counts as important.
pub const SLOT_IMPORTANT: usize = 6;
/// Its value.
pub const SLOT_NUMBER: usize = 7;
/// The second number of its value: of a content the length.
pub const SLOT_SECOND: usize = 8;
/// The byte where its declaration starts: in its sheet, or in the value of its `style` attribute; 0 for `color` and `bgcolor`.
pub const SLOT_START: usize = 9;
/// The numbers of a slot.
pub const SLOT_WIDTH: usize = 10;

/// The origin of what the agent sheet declares.
pub const AGENT_ORIGIN: u32 = 1;
/// The origin of what the user sheet declares.
pub const USER_ORIGIN: u32 = 2;
/// The origin of what the author sheet, or an attribute, declares.
pub const AUTHOR_ORIGIN: u32 = 3;

/// The numbers before the slots of a record, which say whether it is there.
pub const PRESENCE_WIDTH: usize = 1;
/// The numbers of a record.
pub const RECORD_WIDTH: usize = PRESENCE_WIDTH + SLOT_COUNT * SLOT_WIDTH;
/// The numbers of a style row.
pub const STYLE_ROW_WIDTH: usize = RECORD_COUNT * RECORD_WIDTH;

/// Where a slot begins in its record.
#[must_use]
pub const fn slot_place(slot: usize) -> usize {
    PRESENCE_WIDTH + slot * SLOT_WIDTH
}

/// Where a record begins in its style row.
#[must_use]
pub const fn record_place(record: usize) -> usize {
    record * RECORD_WIDTH
}

// ---- least lengths: so much for each byte of text, and more

/// Bytes of the text store for each byte of text.
pub const TEXT_WIDTH: usize = 2;
/// Bytes of the text store beside these.
pub const TEXT_MORE: usize = 12;
/// Numbers for rules, and again for tokens, for each byte of text.
pub const NUMBER_WIDTH: usize = 8;
/// Numbers for rules, and again for tokens, beside these.
pub const NUMBER_MORE: usize = 64;
