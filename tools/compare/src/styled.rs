//! The questions of styles: for each element of a page, with document styles and without, what three sheets and the page make of it.
use crate::asked;
use crate::book;
use crate::engine::{self, BOOK_CALL, STYLE_CALL, Stores, StyleFunction, StyleResult, Styled};
use crate::pages;
use crate::questions::{Answer, Input, PANICS, is_clear, may_overflow, place_of_panic};
use judge::answers::{Decl, ELEMENT_KIND, Page, RECORD_WIDTH, SLOT_WIDTH, STYLE_ROW_WIDTH, Style, StyleRow};
use judge::css::questions as html2text;
use std::ops::Range;

/// None where the engine does not export the call yet.
pub const ASK_COMPUTED: Option<fn(&Input) -> Answer> = match STYLE_CALL {
    Some(_) => Some(ask_computed),
    None => None,
};
pub const ASK_BOOK: Option<fn(&Input) -> Answer> = match BOOK_CALL {
    Some(_) => Some(ask_book),
    None => None,
};

const TOO_SHORT: u32 = 2;
const NO_ELEMENT: u32 = 8;

// What every buffer holds before a call.
const FILLING: u8 = u8::MAX;
// How much longer than they need be the buffers are; which it is depends on the row and the texts.
const MORE: [usize; 4] = [0, 1, 0, 300];
// Document styles are off for 0 and on for all else.
const ON: [u32; 3] = [1, 2, u32::MAX];
const CONTENT_SLOT: usize = 4;
// Where a slot has the two numbers of its value.
const VALUE: Range<usize> = 7..9;
// Of the numbers of a page's nodes one in so many is changed.
const DAMAGED_STEP: usize = 19;

// ---- a call

/// What a call answers and leaves.
pub struct Said {
    pub result: StyleResult,
    pub out: Vec<u32>,
    pub stores: Stores,
}

/// A row with its contents by their texts, which `text_at` gives; None where it gives none.
pub fn row_by_texts<'a>(numbers: &[u32], text_at: impl Fn(usize, usize) -> Option<&'a [u8]>) -> Option<StyleRow> {
    let mut row = StyleRow { numbers: numbers.to_vec(), contents: vec![] };
    for record in row.numbers.chunks_mut(RECORD_WIDTH) {
        let slot = &mut record[1 + CONTENT_SLOT * SLOT_WIDTH..];
        let [start, length] = [slot[VALUE.start] as usize, slot[VALUE.start + 1] as usize];
        // Where there is no content its numbers stay in the row, to be seen.
        if slot[0] == 1 {
            slot[VALUE].fill(0);
        }
        row.contents.push(text_at(start, length)?.to_vec());
    }
    Some(row)
}

/// A call that is lent `more` numbers or bytes in each buffer than the least.
pub fn say(function: StyleFunction, styled: &Styled, row: usize, document_styles: u32, more: usize) -> Said {
    let mut stores = Stores::longer(styled.bytes(), more, FILLING);
    let mut out = vec![u32::from(FILLING); STYLE_ROW_WIDTH + more];
    let result = styled.style(function, row, document_styles, &mut out, &mut stores);
    Said { result, out, stores }
}

impl Said {
    fn numbers(&self) -> [&[u32]; 3] {
        [&self.out, &self.stores.rules, &self.stores.tokens]
    }

    fn bytes(&self) -> [&[u8]; 2] {
        [&self.stores.brackets, &self.stores.texts]
    }

    fn holds_throughout(&self, filling: u8) -> bool {
        let numbers = self.numbers().iter().all(|b| b.iter().all(|&n| n == u32::from(filling)));
        numbers && self.bytes().iter().all(|b| b.iter().all(|&n| n == filling))
    }

    // The work stores, and what lies beyond the row and the texts, are zero.
    fn is_clear_beyond(&self) -> bool {
        let work = is_clear(&self.stores.rules) && is_clear(&self.stores.tokens) && is_clear(&self.stores.brackets);
        work && is_clear(&self.out[STYLE_ROW_WIDTH..]) && is_clear(&self.stores.texts[self.result.texts..])
    }

    /// The row, contents by their texts; None where one does not lie within the texts.
    pub fn style_row(&self) -> Option<StyleRow> {
        let texts = &self.stores.texts[..self.result.texts];
        row_by_texts(&self.out[..STYLE_ROW_WIDTH], |start, length| texts.get(start..start + length))
    }

    /// None where the row and the texts are the expected ones and all else is zero, else what is wrong.
    pub fn wrong(&self, expected: &StyleRow, texts: &[u8]) -> Option<String> {
        let result = StyleResult { refusal: 0, text: 0, place: 0, texts: texts.len() };
        if self.result != result || self.stores.texts[..texts.len()] != *texts {
            let held = self.stores.texts.get(..self.result.texts).map(String::from_utf8_lossy);
            return Some(format!("  expected: {result:?}, {:?}\n  this:     {:?}, {held:?}", String::from_utf8_lossy(texts), self.result));
        }
        if !self.is_clear_beyond() {
            return Some("  this leaves something in the buffers beyond its answer".to_string());
        }
        match self.style_row() {
            None => Some("  a content of this does not lie within its texts".to_string()),
            Some(row) if row == *expected => None,
            Some(row) => Some(format!("  expected: {}\n  this:     {}", show(expected), show(&row))),
        }
    }

    fn refuses(&self, expected: StyleResult, held: u8) -> Result<(), String> {
        if self.result == expected && self.holds_throughout(held) {
            return Ok(());
        }
        let held = self.holds_throughout(held);
        Err(format!("  expected: {expected:?}\n  this:     {:?}, buffers as they should be: {held}", self.result))
    }
}

// The slots that are not all zeros.
pub fn show(row: &StyleRow) -> String {
    let mut text = String::new();
    for (i, record) in row.numbers.chunks(RECORD_WIDTH).enumerate() {
        text += &format!("record {i} present {}", record[0]);
        for (slot, numbers) in record[1..].chunks(SLOT_WIDTH).enumerate().filter(|(_, n)| !is_clear(n)) {
            text += &format!(", slot {slot} {numbers:?}");
        }
        text += &format!(" {:?}; ", String::from_utf8_lossy(&row.contents[i]));
    }
    text
}

// ---- the texts that a call keeps

// Those of all contents that a sheet's rules have, whether or not they match.
fn sheet_texts(sheet: &str) -> Vec<u8> {
    let read = asked::read_sheet(sheet).expect("a sheet that reads");
    let content = |decl: &Decl| if let Decl::Content(text) = decl { text.clone() } else { vec![] };
    read.rules.iter().flat_map(|r| &r.declarations).flat_map(|d| content(&d.decl)).collect()
}

/// Those of the style attributes of an element.
pub fn attribute_texts(page: &Page, row: usize) -> Vec<u8> {
    let content = |style: Style| if let Style::Content(text) = style { text } else { vec![] };
    let styles = |value: &str| html2text::style_attribute(value).expect("a style attribute never panics");
    let attributes = page.attributes_of(row).into_iter().filter(|(name, _)| *name == "style");
    attributes.flat_map(|(_, value)| styles(value)).flat_map(|s| content(s.style)).collect()
}

/// For each row of a page the texts of the call that asks for it.
pub fn texts_of_calls(styled: &Styled, document_styles: bool) -> Vec<Vec<u8>> {
    let page = styled.page;
    let mut texts: Vec<Vec<u8>> = vec![styled.sheets.iter().flat_map(|s| sheet_texts(s)).collect()];
    for row in 1..page.rows() {
        let mut own = texts[page.parent(row)].clone();
        if document_styles && page.kind(row) == ELEMENT_KIND {
            own.extend(attribute_texts(page, row));
        }
        texts.push(own);
    }
    texts
}

// ---- asking

type Styles = fn([&str; 3], &Page, bool) -> Option<Vec<StyleRow>>;

fn more(styled: &Styled, row: usize) -> usize {
    MORE[(row + styled.bytes()) % MORE.len()]
}

fn nothing_but(refusal: u32) -> StyleResult {
    StyleResult { refusal, text: 0, place: 0, texts: 0 }
}

// Rows that are no elements, and the row behind the last, are refused; nothing changes.
fn ask_other_rows(function: StyleFunction, styled: &Styled) -> Result<(), String> {
    let rows = styled.page.rows();
    for row in (0..=rows).filter(|&row| row == rows || styled.page.kind(row) != ELEMENT_KIND) {
        say(function, styled, row, 1, more(styled, row)).refuses(nothing_but(NO_ELEMENT), FILLING).map_err(|how| format!("  row {row}\n{how}"))?;
    }
    Ok(())
}

// Each buffer in turn is one too short.
fn ask_with_too_little(function: StyleFunction, styled: &Styled) -> Result<(), String> {
    for short in 0..5 {
        let mut stores = Stores::new(styled.bytes(), FILLING);
        let mut out = vec![u32::from(FILLING); STYLE_ROW_WIDTH];
        let taken = match short {
            0 => out.pop().is_some(),
            1 => stores.texts.pop().is_some(),
            2 => stores.rules.pop().is_some(),
            3 => stores.tokens.pop().is_some(),
            _ => stores.brackets.pop().is_some(),
        };
        if taken {
            let result = styled.style(function, 1, 1, &mut out, &mut stores);
            Said { result, out, stores }.refuses(nothing_but(TOO_SHORT), FILLING).map_err(|how| format!("  buffer {short} is too short\n{how}"))?;
        }
    }
    Ok(())
}

// Pages with a number more, or one changed, are refused as `check_page` refuses them; nothing changes.
fn ask_damaged_pages(function: StyleFunction, styled: &Styled) -> Result<(), String> {
    let mut longer = styled.page.clone();
    longer.attributes.push(0);
    let mut damaged = vec![longer];
    let numbers = styled.page.nodes.len();
    for place in (styled.bytes() % DAMAGED_STEP..numbers).step_by(DAMAGED_STEP) {
        let mut page = styled.page.clone();
        page.nodes[place] += 1;
        damaged.push(page);
    }
    for page in &damaged {
        let checked = engine::check_page(page);
        let expected = StyleResult { place: checked.place, ..nothing_but(checked.refusal) };
        if checked.refusal != 0 {
            let said = say(function, &Styled { page, ..*styled }, 1, 1, 0);
            said.refuses(expected, FILLING).map_err(|how| format!("  nodes {:?}\n{how}", page.nodes))?;
        }
    }
    Ok(())
}

// Every element is refused; all that could be written is zero.
fn ask_where_it_panics(function: StyleFunction, styled: &Styled, text: usize) -> Result<(), String> {
    let place = place_of_panic(styled.sheets[text]);
    for row in styled.page.elements() {
        let said = say(function, styled, row, row as u32 % 2, more(styled, row));
        let expected = StyleResult { text, place: place.unwrap_or(said.result.place), ..nothing_but(PANICS) };
        said.refuses(expected, 0).map_err(|how| format!("  html2text panics; row {row}\n{how}"))?;
    }
    Ok(())
}

fn ask_elements(function: StyleFunction, styled: &Styled, styles: Styles, document_styles: bool) -> Result<(), String> {
    let rows = styles(styled.sheets, styled.page, document_styles).ok_or("  html2text panics while it computes styles")?;
    let texts = texts_of_calls(styled, document_styles);
    for (row, expected) in styled.page.elements().into_iter().zip(&rows) {
        let switch = if document_styles { ON[row % ON.len()] } else { 0 };
        let said = say(function, styled, row, switch, more(styled, row));
        if let Some(how) = said.wrong(expected, &texts[row]) {
            return Err(format!("  row {row}, document styles {switch}\n{how}"));
        }
    }
    Ok(())
}

fn answer(asked: Result<(), String>, same: Answer) -> Answer {
    match asked {
        Ok(()) => same,
        Err(how) => Answer::Different(how),
    }
}

fn ask(input: &Input, function: Option<StyleFunction>, styles: Styles) -> Answer {
    let function = function.expect("a question that is there");
    let page = pages::page(&input.tree);
    let styled = Styled { sheets: [&input.texts[0], &input.texts[1], &input.texts[2]], page: &page };
    let refusals = [ask_other_rows, ask_with_too_little, ask_damaged_pages];
    if let Err(how) = refusals.iter().try_for_each(|ask| ask(function, &styled)) {
        return Answer::Different(how);
    }
    let read: Vec<_> = styled.sheets.iter().map(|s| asked::read_sheet(s)).collect();
    if let Some(text) = read.iter().position(Option::is_none) {
        return answer(ask_where_it_panics(function, &styled, text), Answer::SamePanic);
    }
    if read.iter().flatten().flat_map(|r| &r.rules).flat_map(|r| &r.selectors).any(may_overflow) {
        return Answer::Outside;
    }
    answer(ask_elements(function, &styled, styles, true).and_then(|()| ask_elements(function, &styled, styles, false)), Answer::Same)
}

fn ask_computed(input: &Input) -> Answer {
    ask(input, STYLE_CALL, asked::computed_styles)
}

fn ask_book(input: &Input) -> Answer {
    ask(input, BOOK_CALL, book::computed_styles)
}
