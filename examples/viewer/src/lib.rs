//! The text of an HTML page in the colours that its stylesheets give it, with hidden parts left out and invisible ones blank: the maker's sheet, the school's and the page's own decide.

pub mod document;
pub mod dom;
pub mod render;

use document::Document;
use hicsolmab::{Refusal, Settings, Sheets};
use render::Piece;

/// The maker's sheet.
pub const MAKER: &str = include_str!("../sheets/maker.css");

/// The sheets of a page: the maker's, the school's, and its own.
pub fn sheets<'a>(school: &'a str, document: &'a Document) -> Sheets<'a> {
    Sheets { agent: MAKER.as_bytes(), user: school.as_bytes(), author: document.sheet.as_bytes() }
}

/// The lines of a page.
pub fn view(html: &[u8], school: &str) -> Result<Vec<Vec<Piece>>, Refusal> {
    let document = Document::new(&dom::parse(html))?;
    let compiled = sheets(school, &document).compile()?;
    let styles = compiled.run(&document.page, Settings::default())?;
    Ok(render::render(&document, &styles))
}
