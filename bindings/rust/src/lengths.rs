//! The least lengths of what a call is lent. A shorter slice is refused with [`SHORT_STORE`](crate::layout::SHORT_STORE).
//!
//! They grow with the bytes of text that a call is handed: first come the functions that count these, one for each call, then the lengths by that count.
use crate::layout::{ATTRIBUTE_WIDTH, DEPTH_LIMIT, NODE_WIDTH, NUMBER_MORE, NUMBER_WIDTH, STYLE_ROW_WIDTH, TEXT_MORE, TEXT_WIDTH};

/// Attribute rows count twice among the bytes of a page.
const BYTES_OF_ATTRIBUTE: usize = 2;

/// The bytes of text of [`calls::read_sheet`](crate::calls::read_sheet), by the length of its sheet.
#[must_use]
pub const fn read_sheet_bytes(sheet_length: usize) -> usize {
    sheet_length
}

/// The bytes of text of [`calls::height_length`](crate::calls::height_length), by the length of its value.
#[must_use]
pub const fn height_length_bytes(value_length: usize) -> usize {
    value_length
}

/// The bytes of text of [`calls::compile`](crate::calls::compile), by the lengths of its sheets.
#[must_use]
pub const fn compile_bytes(agent_length: usize, user_length: usize, author_length: usize) -> usize {
    agent_length + user_length + author_length
}

/// The bytes of text of [`calls::run`](crate::calls::run), by the lengths of its attribute rows and its page's text.
#[must_use]
pub const fn run_bytes(attributes_length: usize, text_length: usize) -> usize {
    text_length + BYTES_OF_ATTRIBUTE * (attributes_length / ATTRIBUTE_WIDTH)
}

/// The bytes of text of [`calls::style`](crate::calls::style) and [`calls::style_book`](crate::calls::style_book), by the lengths of their sheets, attribute rows
/// and page's text.
#[must_use]
pub const fn style_bytes(agent_length: usize, user_length: usize, author_length: usize, attributes_length: usize, text_length: usize) -> usize {
    compile_bytes(agent_length, user_length, author_length) + run_bytes(attributes_length, text_length)
}

/// Numbers in `rules`.
#[must_use]
pub const fn rules(bytes: usize) -> usize {
    NUMBER_WIDTH * bytes + NUMBER_MORE
}

/// Numbers in `tokens`.
#[must_use]
pub const fn tokens(bytes: usize) -> usize {
    NUMBER_WIDTH * bytes + NUMBER_MORE
}

/// Bytes in `brackets`.
#[must_use]
pub const fn brackets(bytes: usize) -> usize {
    bytes
}

/// Bytes in `texts`.
#[must_use]
pub const fn texts(bytes: usize) -> usize {
    TEXT_WIDTH * bytes + TEXT_MORE
}

/// Numbers in the `rows` of a run, by the length of its node rows.
#[must_use]
pub const fn rows(nodes_length: usize) -> usize {
    STYLE_ROW_WIDTH * (nodes_length / NODE_WIDTH)
}

/// Bytes in the `state` of a run, by the length of the compiled sheet.
#[must_use]
pub const fn state(compiled_length: usize) -> usize {
    (DEPTH_LIMIT + 1) * (compiled_length + 1)
}
