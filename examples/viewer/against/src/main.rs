//! against SCHOOL.css PAGE.html ..
//!
//! Holds what the viewer shows of pages against html2text 0.17.4: for each element whether it is hidden and in which colours it is, by the crate's own `computed_style` (tools/crate builds it),
//! whether it is invisible, by the crate's own `maybe_update`, and the same for its `::before` and `::after`. It fails where there is a difference.
use hicsolmab::{Color, Record, Settings, Style};
use judge::answers::{Page, RECORD_WIDTH, SLOT_WIDTH, StyleRow, VISIBILITY_SLOT};
use judge::css::questions as html2text;
use std::fs;
use std::process::ExitCode;
use viewer::document::Document;
use viewer::{MAKER, dom, sheets};

const RECORDS: usize = 3;
// The slots of a record, and what a slot says of its value.
const COLOUR: usize = 0;
const BACKGROUND: usize = 1;
const DISPLAY: usize = 2;
const FILLED: usize = 0;
const NUMBER: usize = 7;

/// What is shown of an element, or of what stands before or behind its text.
#[derive(Debug, Default, PartialEq, Eq)]
struct Shown {
    there: bool,
    hidden: bool,
    invisible: bool,
    colour: Option<u32>,
    background: Option<u32>,
    content: Vec<u8>,
}

fn number(color: Color) -> u32 {
    u32::from_be_bytes([0, color.red, color.green, color.blue])
}

fn by_this(record: Option<Record>) -> Shown {
    record.map_or(Shown::default(), |record| Shown {
        there: true,
        hidden: record.is_hidden(),
        invisible: record.is_invisible(),
        colour: record.color().map(number),
        background: record.background_color().map(number),
        content: record.content().unwrap_or_default().to_vec(),
    })
}

fn by_html2text(row: &StyleRow, record: usize) -> Shown {
    let numbers = &row.numbers[record * RECORD_WIDTH..][..RECORD_WIDTH];
    let slot = |slot: usize| &numbers[1 + slot * SLOT_WIDTH..][..SLOT_WIDTH];
    let value = |at: usize| (slot(at)[FILLED] != 0).then(|| slot(at)[NUMBER]);
    Shown {
        there: numbers[0] != 0,
        hidden: value(DISPLAY).is_some(),
        invisible: value(VISIBILITY_SLOT) == Some(1),
        colour: value(COLOUR),
        background: value(BACKGROUND),
        content: row.contents[record].clone(),
    }
}

#[derive(Default)]
struct Tally {
    elements: usize,
    hidden: usize,
    coloured: usize,
    different: usize,
}

impl Tally {
    fn add(&mut self, row: usize, name: &str, style: Style, theirs: &StyleRow) {
        let this = [Some(style.main()), style.before(), style.after()].map(by_this);
        let theirs: Vec<Shown> = (0..RECORDS).map(|record| by_html2text(theirs, record)).collect();
        self.elements += 1;
        self.hidden += usize::from(this[0].hidden);
        self.coloured += usize::from(this[0].colour.is_some() || this[0].background.is_some());
        if this[..] != theirs[..] {
            self.different += 1;
            println!("row {row}, {name}\n  html2text: {theirs:?}\n  this:      {this:?}");
        }
    }
}

fn hold(path: &str, school: &str) -> Tally {
    let html = fs::read(path).expect("the page is read");
    let document = Document::new(&dom::parse(&html)).expect("a page that is accepted");
    let compiled = sheets(school, &document).compile().expect("sheets that compile");
    let styles = compiled.run(&document.page, Settings::default()).expect("a page that runs");
    let rows = document.page.rows();
    let page = Page { nodes: rows.nodes.to_vec(), attributes: rows.attributes.to_vec(), text: rows.text.to_vec() };
    let theirs = html2text::computed_styles([MAKER, school, &document.sheet], &page, true).expect("html2text computes the styles");
    let mut tally = Tally::default();
    assert_eq!(styles.elements().count(), theirs.len(), "both have the same elements");
    for ((row, style), theirs) in styles.elements().zip(&theirs) {
        tally.add(row, document.page.name(row).unwrap_or_default(), style, theirs);
    }
    tally
}

fn main() -> ExitCode {
    let words: Vec<String> = std::env::args().skip(1).collect();
    let [school, pages @ ..] = &words[..] else {
        eprintln!("against SCHOOL.css PAGE.html ..");
        return ExitCode::from(2);
    };
    let school = fs::read_to_string(school).expect("the school's sheet is read");
    let mut different = 0;
    println!("| page | elements | hidden | coloured | different |\n|---|---|---|---|---|");
    for path in pages {
        let tally = hold(path, &school);
        different += tally.different;
        let name = path.rsplit('/').next().unwrap_or(path);
        println!("| {name} | {} | {} | {} | {} |", tally.elements, tally.hidden, tally.coloured, tally.different);
    }
    if different == 0 { ExitCode::SUCCESS } else { ExitCode::FAILURE }
}
