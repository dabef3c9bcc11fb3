//! html2text, asked for sheets as this engine reads them. Two differences (docs/DIFFERENCES.md): where a sheet ends behind the `=` of an attribute selector html2text panics, and
//! this reads on. There html2text is asked for the sheet with one `=` more, in which that selector is one that it does not read. Where it panics at a number it does so with that too.
//! And html2text knows no `visibility`. What it answers is its own; to that tools/crate adds the declarations of that name which its readers find with the one word `visible` or `hidden`,
//! and what its own `maybe_update` makes of them. To html2text such a declaration is an unknown one, a rule with no other style has none, and a pseudo record with no other slot is not there.
use judge::answers::{Page, Sheet, StyleRow};
use judge::css::questions::{self as html2text, Applied};
use std::borrow::Cow;

fn asked(sheet: &str) -> Cow<'_, str> {
    let is_cut = sheet.ends_with('=') && html2text::read_sheet(sheet).is_none();
    if is_cut { Cow::Owned(format!("{sheet}=")) } else { Cow::Borrowed(sheet) }
}

pub fn read_sheet(sheet: &str) -> Option<Sheet> {
    html2text::read_sheet(&asked(sheet))
}

pub fn compile(sheets: [&str; 3]) -> Option<Vec<u8>> {
    let [agent, user, author] = sheets.map(asked);
    html2text::compile(&agent, &user, &author)
}

pub fn applied_rules(sheets: [&str; 3], page: &Page) -> Option<Vec<Vec<Applied>>> {
    let [agent, user, author] = sheets.map(asked);
    html2text::applied_rules([&agent, &user, &author], page)
}

pub fn computed_styles(sheets: [&str; 3], page: &Page, document_styles: bool) -> Option<Vec<StyleRow>> {
    let [agent, user, author] = sheets.map(asked);
    html2text::computed_styles([&agent, &user, &author], page, document_styles)
}
