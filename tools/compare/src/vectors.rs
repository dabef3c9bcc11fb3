//! The fixed list of html2text's answers: how it is written, and how it is replayed. The format is described in tools/vectors/README.md.
use crate::asked;
use crate::engine::{self, Stores, Styled};
use crate::pages;
use crate::questions::Input;
use crate::styled::{say, texts_of_calls};
use judge::answers::{Decl, ELEMENT_KIND, Page, RECORD_WIDTH, Rows, Rule, SLOT_WIDTH, SLOTS, STYLE_WIDTH, Style, StyleRow};
use judge::css::questions as html2text;

const SHEET: u32 = 1;
const STYLE_ATTRIBUTE: u32 = 2;
const COLOR_ATTRIBUTE: u32 = 3;
const MATCHES: u32 = 4;
const COMPILE: u32 = 5;
const COMPUTED: u32 = 6;
const PANICS: u32 = 4;

// Where a slot of a style row has its value, the slot of contents, and how many records a row has.
const VALUE: usize = 7;
const CONTENT_SLOT: usize = 4;
const RECORDS: usize = 3;

// ---- writing

/// Numbers and texts as the compiled sheet has them; a list is its count, then its numbers.
#[derive(Default)]
pub struct Writer {
    pub bytes: Vec<u8>,
}

impl Writer {
    pub fn number(&mut self, mut n: u32) {
        while n >= 128 {
            self.bytes.push((n % 128) as u8 + 128);
            n /= 128;
        }
        self.bytes.push(n as u8);
    }

    fn text(&mut self, text: &[u8]) {
        self.number(text.len() as u32);
        self.bytes.extend_from_slice(text);
    }

    fn list(&mut self, numbers: &[u32]) {
        self.number(numbers.len() as u32);
        numbers.iter().for_each(|&n| self.number(n));
    }

    fn rows(&mut self, rows: &Rows) {
        self.list(&rows.numbers);
        self.text(&rows.texts);
    }

    fn page(&mut self, page: &Page) {
        self.list(&page.nodes);
        self.list(&page.attributes);
        self.text(&page.text);
    }
}

fn sheet(input: &Input) -> Vec<Vec<u8>> {
    let mut out = Writer::default();
    out.number(SHEET);
    out.text(input.texts[0].as_bytes());
    match html2text::read_sheet(&input.texts[0]) {
        None => out.number(PANICS),
        Some(read) => {
            out.number(0);
            out.number(read.rules.len() as u32);
            out.number(read.stop as u32);
            out.rows(&Rows::of_rules(&read.rules));
        }
    }
    vec![out.bytes]
}

fn style_attribute(input: &Input) -> Vec<Vec<u8>> {
    let mut out = Writer::default();
    out.number(STYLE_ATTRIBUTE);
    out.text(input.texts[0].as_bytes());
    out.rows(&Rows::of_styles(&html2text::style_attribute(&input.texts[0]).expect("never panics")));
    vec![out.bytes]
}

fn color_attribute(input: &Input) -> Vec<Vec<u8>> {
    let mut out = Writer::default();
    let colour = html2text::color_attribute(&input.texts[0]).expect("never panics");
    out.number(COLOR_ATTRIBUTE);
    out.text(input.texts[0].as_bytes());
    out.number(u32::from(colour.is_some()));
    out.number(colour.unwrap_or(0));
    vec![out.bytes]
}

// A record for each selector of the sheet.
fn matches(input: &Input) -> Vec<Vec<u8>> {
    let page = pages::page(&input.tree);
    let matched = html2text::matches(&input.texts[0], &page).unwrap_or_default();
    let one = |m: &html2text::Matched| {
        let mut out = Writer::default();
        out.number(MATCHES);
        out.number(m.selector.components.len() as u32);
        out.rows(&Rows::of_components(&m.selector.components));
        out.page(&page);
        out.list(&[m.specificity.ids, m.specificity.classes, m.specificity.types]);
        let mut elements = m.elements.iter();
        let row = |row| u32::from(page.kind(row) == ELEMENT_KIND && *elements.next().expect("an answer for each element"));
        out.list(&(0..page.rows()).map(row).collect::<Vec<u32>>());
        out.bytes
    };
    matched.iter().map(one).collect()
}

fn compile(input: &Input) -> Vec<Vec<u8>> {
    let mut out = Writer::default();
    out.number(COMPILE);
    input.texts.iter().for_each(|t| out.text(t.as_bytes()));
    match html2text::compile(&input.texts[0], &input.texts[1], &input.texts[2]) {
        None => out.number(PANICS),
        Some(bytes) => {
            out.number(0);
            out.text(&bytes);
        }
    }
    vec![out.bytes]
}

// The slots of a style row that are filled: main, before and after, each with a flag and a count. Starts, of which html2text has none, are left out.
fn put_style_row(out: &mut Writer, row: &StyleRow) {
    for (record, content) in row.numbers.chunks(RECORD_WIDTH).zip(&row.contents) {
        let slots: Vec<(usize, &[u32])> = record[1..].chunks(SLOT_WIDTH).enumerate().filter(|(_, slot)| slot[0] == 1).collect();
        assert!(slots.len() <= SLOTS);
        out.number(record[0]);
        out.number(slots.len() as u32);
        for (number, slot) in slots {
            out.number(number as u32);
            slot[1..VALUE].iter().for_each(|&n| out.number(n));
            if number == CONTENT_SLOT { out.text(content) } else { out.number(slot[VALUE]) }
        }
    }
}

// A record with document styles, and one without.
fn computed(input: &Input) -> Vec<Vec<u8>> {
    let page = pages::page(&input.tree);
    let sheets = [&input.texts[0][..], &input.texts[1], &input.texts[2]];
    let one = |document_styles: bool| {
        let rows = html2text::computed_styles(sheets, &page, document_styles)?;
        let mut out = Writer::default();
        out.number(COMPUTED);
        sheets.iter().for_each(|t| out.text(t.as_bytes()));
        out.page(&page);
        out.number(u32::from(document_styles));
        rows.iter().for_each(|row| put_style_row(&mut out, row));
        Some(out.bytes)
    };
    [true, false].into_iter().filter_map(one).collect()
}

// Whether a style attribute has a visibility that this knows.
fn hides_or_shows(value: &str) -> bool {
    html2text::style_attribute(value).is_some_and(|styles| styles.iter().any(|s| matches!(s.style, Style::Visibility(_))))
}

/// Whether an input has a visibility that this knows, read as a sheet or as a style attribute. Html2text does not, so of such an input its answer is no vector.
pub fn has_visibility(input: &Input) -> bool {
    let declared = |rule: &Rule| rule.declarations.iter().any(|d| matches!(d.decl, Decl::Visibility { .. }));
    let in_sheet = |text: &String| html2text::read_sheet(text).is_some_and(|read| read.rules.iter().any(declared)) || hides_or_shows(text);
    let in_attributes = |(_, attributes): &(String, Vec<(String, String)>)| attributes.iter().any(|(_, value)| hides_or_shows(value));
    input.texts.iter().any(in_sheet) || input.tree.iter().filter_map(|node| node.element.as_ref()).any(in_attributes)
}

/// The records of an input, by the name of its question.
pub fn records(question: &str, input: &Input) -> Vec<Vec<u8>> {
    match question {
        "sheet" => sheet(input),
        "style" => style_attribute(input),
        "colour" => color_attribute(input),
        "matches" => matches(input),
        "compile" => compile(input),
        "computed" => computed(input),
        _ => vec![],
    }
}

// ---- replaying

struct Reader<'a> {
    bytes: &'a [u8],
    at: usize,
}

impl<'a> Reader<'a> {
    fn number(&mut self) -> u32 {
        let mut n = 0;
        let mut shift = 0;
        loop {
            let byte = self.bytes[self.at];
            self.at += 1;
            n |= u32::from(byte % 128) << shift;
            if byte < 128 {
                return n;
            }
            shift += 7;
        }
    }

    fn text(&mut self) -> &'a [u8] {
        let length = self.number() as usize;
        self.at += length;
        &self.bytes[self.at - length..self.at]
    }

    fn list(&mut self) -> Vec<u32> {
        (0..self.number()).map(|_| self.number()).collect()
    }

    fn rows(&mut self) -> Rows {
        Rows { numbers: self.list(), texts: self.text().to_vec() }
    }
}

fn replay_sheet(file: &mut Reader) -> bool {
    let text = file.text();
    let mut stores = Stores::new(text.len(), u8::MAX);
    let this = stores.read_sheet(text);
    let refusal = file.number();
    if refusal != 0 {
        return this.refusal == refusal;
    }
    let expected = (0, file.number() as usize, file.number() as usize, file.rows());
    let rows = Rows { numbers: stores.rules[..this.numbers].to_vec(), texts: stores.texts[..this.bytes].to_vec() };
    expected == (this.refusal, this.count, this.stop, rows)
}

fn replay_style_attribute(file: &mut Reader) -> bool {
    let text = file.text();
    let mut stores = Stores::new(text.len(), 0);
    let this = stores.style_attribute(text);
    let expected = file.rows();
    let rows = Rows { numbers: stores.tokens[..this.count * STYLE_WIDTH].to_vec(), texts: stores.texts[..this.bytes].to_vec() };
    expected == rows
}

fn replay_color_attribute(file: &mut Reader) -> bool {
    let text = file.text();
    let this = Stores::new(text.len(), 0).color_attribute(text);
    (file.number(), file.number()) == (this.found, if this.found == 1 { this.colour } else { 0 })
}

fn replay_matches(file: &mut Reader) -> bool {
    let count = file.number() as usize;
    let components = file.rows();
    let page = Page { nodes: file.list(), attributes: file.list(), text: file.text().to_vec() };
    let specificity = file.list();
    let answers = file.list();
    page.elements().into_iter().all(|row| {
        let this = engine::matches(&components.numbers, count, &components.texts, &page, row);
        this.refusal == 0 && this.matches == answers[row] && [this.ids, this.classes, this.types][..] == specificity
    })
}

#[cfg(compiler)]
fn this_compiles(sheets: [&[u8]; 3]) -> (u32, Vec<u8>) {
    let mut stores = Stores::new(sheets.iter().map(|s| s.len()).sum(), u8::MAX);
    let mut compiled = vec![u8::MAX; 65536];
    let this = stores.compile(sheets, &mut compiled);
    (this.refusal, compiled[..this.bytes].to_vec())
}

// None as long as the engine exports no compiler.
fn replay_compile(file: &mut Reader) -> Option<bool> {
    let _sheets = [file.text(), file.text(), file.text()];
    let refusal = file.number();
    let _bytes = if refusal == 0 { file.text() } else { &[] };
    #[cfg(compiler)]
    return Some(this_compiles(_sheets) == (refusal, _bytes.to_vec()));
    #[cfg(not(compiler))]
    None
}

// The style row of the next element, without starts.
fn style_row(file: &mut Reader) -> StyleRow {
    let mut row = StyleRow::default();
    for _ in 0..RECORDS {
        let mut record = vec![0; RECORD_WIDTH];
        let mut content = vec![];
        record[0] = file.number();
        for _ in 0..file.number() {
            let number = file.number() as usize;
            let slot = &mut record[1 + number * SLOT_WIDTH..][..SLOT_WIDTH];
            slot[0] = 1;
            slot[1..VALUE].fill_with(|| file.number());
            if number == CONTENT_SLOT { content = file.text().to_vec() } else { slot[VALUE] = file.number() }
        }
        row.numbers.extend(record);
        row.contents.push(content);
    }
    row
}

// None as long as the engine exports no style call.
fn replay_computed(file: &mut Reader) -> Option<bool> {
    let sheets = [file.text(), file.text(), file.text()].map(|t| std::str::from_utf8(t).expect("sheets are UTF-8"));
    let page = Page { nodes: file.list(), attributes: file.list(), text: file.text().to_vec() };
    let document_styles = file.number();
    let recorded: Vec<StyleRow> = page.elements().iter().map(|_| style_row(file)).collect();
    let function = engine::STYLE_CALL?;
    let rows = asked::computed_styles(sheets, &page, document_styles == 1).expect("html2text answered before");
    if rows.iter().cloned().map(StyleRow::without_starts).ne(recorded) {
        return Some(false);
    }
    let styled = Styled { sheets, page: &page };
    let texts = texts_of_calls(&styled, document_styles == 1);
    let same = |(row, expected): (usize, &StyleRow)| say(function, &styled, row, document_styles, 0).wrong(expected, &texts[row]).is_none();
    Some(page.elements().into_iter().zip(&rows).all(same))
}

/// How many vectors a file has, how many of them were asked, and how many differ.
pub struct Replayed {
    pub count: usize,
    pub asked: usize,
    pub differ: usize,
}

/// Replays a file of vectors.
pub fn replay(bytes: &[u8]) -> Replayed {
    let mut file = Reader { bytes, at: 0 };
    let mut replayed = Replayed { count: file.number() as usize, asked: 0, differ: 0 };
    for _ in 0..replayed.count {
        let same = match file.number() {
            SHEET => Some(replay_sheet(&mut file)),
            STYLE_ATTRIBUTE => Some(replay_style_attribute(&mut file)),
            COLOR_ATTRIBUTE => Some(replay_color_attribute(&mut file)),
            MATCHES => Some(replay_matches(&mut file)),
            COMPILE => replay_compile(&mut file),
            COMPUTED => replay_computed(&mut file),
            kind => panic!("no vector has kind {kind}"),
        };
        replayed.asked += usize::from(same.is_some());
        replayed.differ += usize::from(same == Some(false));
    }
    assert_eq!(file.at, bytes.len(), "the file ends behind its last vector");
    replayed
}
