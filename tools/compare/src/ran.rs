//! The questions of runs: three sheets are compiled, the bytes go down a page in one call, with document styles and without, and every row is held against html2text's
//! computed style and against this engine's own style call for the element.
use crate::asked;
use crate::engine::{self, Lengths, Lent, RUN_CALL, Run, RunFunction, RunResult, STYLE_CALL, Stores, Styled};
use crate::guarded::Guarded;
use crate::pages;
use crate::questions::{Answer, COMPILED_LIMIT, Input, is_clear, may_overflow};
use crate::styled::{attribute_texts, row_by_texts, say, show};
use judge::answers::{ELEMENT_KIND, Page, STYLE_ROW_WIDTH, StyleRow};

/// None where the engine does not export all that is asked yet.
pub const ASK_RUN: Option<fn(&Input) -> Answer> = match (RUN_CALL, STYLE_CALL) {
    (Some(_), Some(_)) => Some(ask_run),
    _ => None,
};

const TOO_SHORT: u32 = 2;
// What every buffer holds before a call; which it is depends on the page.
const FILLINGS: [u8; 4] = [u8::MAX, 1, 3, 0];
// How much longer than they need be the buffers are; half of the calls are lent the least.
const MORE: [usize; 4] = [0, 1, 0, 300];
// Document styles are off for 0 and on for all else.
const ON: [u32; 3] = [1, 2, u32::MAX];
// Of the numbers of a page's nodes, and of the compiled bytes, one in so many is changed.
const DAMAGED_NODES: usize = 19;
const DAMAGED_BYTES: usize = 13;
const BUFFERS: usize = 6;

// ---- a call

/// What a call answers and leaves. All that it is lent, to read and to write, ends where the memory ends.
pub struct Ran {
    pub result: RunResult,
    pub rows: Guarded<u32>,
    pub texts: Guarded<u8>,
    state: Guarded<u8>,
    rules: Guarded<u32>,
    tokens: Guarded<u32>,
    brackets: Guarded<u8>,
}

/// A call with buffers of these lengths.
pub fn run_with(function: RunFunction, run: &Run, switch: u32, lengths: Lengths, filling: u8) -> Ran {
    let (compiled, text) = (Guarded::of(run.compiled), Guarded::of(run.text));
    let (nodes, attributes) = (Guarded::of(run.nodes), Guarded::of(run.attributes));
    let number = u32::from(filling);
    let mut ran = Ran {
        result: RunResult { refusal: 0, place: 0, texts: 0 },
        rows: Guarded::filled(number, lengths.rows),
        texts: Guarded::filled(filling, lengths.texts),
        state: Guarded::filled(filling, lengths.state),
        rules: Guarded::filled(number, lengths.rules),
        tokens: Guarded::filled(number, lengths.tokens),
        brackets: Guarded::filled(filling, lengths.brackets),
    };
    let Ran { rows, texts, state, rules, tokens, brackets, .. } = &mut ran;
    let lent = Lent { rows, texts, state, rules, tokens, brackets };
    ran.result = Run { compiled: &compiled, nodes: &nodes, attributes: &attributes, text: &text }.run(function, switch, lent);
    ran
}

impl Ran {
    fn holds_throughout(&self, filling: u8) -> bool {
        let numbers = [&self.rows, &self.rules, &self.tokens].iter().all(|b| b.iter().all(|&n| n == u32::from(filling)));
        numbers && [&self.texts, &self.state, &self.brackets].iter().all(|b| b.iter().all(|&n| n == filling))
    }

    // The work stores, and what lies beyond the rows and the texts, are zero.
    fn is_clear_beyond(&self, rows: usize) -> bool {
        let work = is_clear(&self.rules) && is_clear(&self.tokens) && is_clear(&self.brackets) && is_clear(&self.state);
        work && is_clear(&self.rows[STYLE_ROW_WIDTH * rows..]) && is_clear(&self.texts[self.result.texts..])
    }

    fn row(&self, row: usize) -> &[u32] {
        &self.rows[STYLE_ROW_WIDTH * row..][..STYLE_ROW_WIDTH]
    }

    // A row, contents by their texts: each lies within the compiled bytes or within the texts.
    fn style_row(&self, compiled: &[u8], row: usize) -> Option<StyleRow> {
        let texts = &self.texts[..self.result.texts];
        row_by_texts(self.row(row), |start, length| match start.checked_sub(compiled.len()) {
            None => compiled.get(start..start + length),
            Some(behind) => texts.get(behind..behind + length),
        })
    }

    fn refuses(&self, expected: RunResult, filling: u8) -> Result<(), String> {
        if self.result == expected && self.holds_throughout(filling) {
            return Ok(());
        }
        let held = self.holds_throughout(filling);
        Err(format!("  expected: {expected:?}\n  this:     {:?}, buffers as they should be: {held}", self.result))
    }
}

// ---- asking

/// Sheets, their compiled bytes, and a page.
pub struct Asked<'a> {
    pub styled: Styled<'a>,
    pub compiled: &'a [u8],
}

impl Asked<'_> {
    fn run(&self) -> Run<'_> {
        Run::new(self.compiled, self.styled.page)
    }

    // A number that depends on the sheets and the page.
    fn turn(&self) -> usize {
        self.compiled.len() + self.styled.page.text.len() + self.styled.page.rows()
    }

    fn filling(&self) -> u8 {
        FILLINGS[self.turn() / MORE.len() % FILLINGS.len()]
    }
}

fn nothing_but(refusal: u32) -> RunResult {
    RunResult { refusal, place: 0, texts: 0 }
}

// Each buffer in turn is one too short.
fn ask_with_too_little(function: RunFunction, asked: &Asked) -> Result<(), String> {
    let (run, filling) = (asked.run(), asked.filling());
    for short in 0..BUFFERS {
        let mut lengths = run.least();
        let length = match short {
            0 => &mut lengths.rows,
            1 => &mut lengths.texts,
            2 => &mut lengths.state,
            3 => &mut lengths.rules,
            4 => &mut lengths.tokens,
            _ => &mut lengths.brackets,
        };
        if *length > 0 {
            *length -= 1;
            run_with(function, &run, 1, lengths, filling)
                .refuses(nothing_but(TOO_SHORT), filling)
                .map_err(|how| format!("  buffer {short} is too short\n{how}"))?;
        }
    }
    Ok(())
}

// Pages with a number more, or one changed, are refused as `check_page` refuses them; nothing changes.
fn ask_damaged_pages(function: RunFunction, asked: &Asked) -> Result<(), String> {
    let page = asked.styled.page;
    let mut longer = page.clone();
    longer.attributes.push(0);
    let mut damaged = vec![longer];
    for place in (asked.turn() % DAMAGED_NODES..page.nodes.len()).step_by(DAMAGED_NODES) {
        let mut page = page.clone();
        page.nodes[place] += 1;
        damaged.push(page);
    }
    for page in &damaged {
        let checked = engine::check_page(page);
        if checked.refusal != 0 {
            let (run, expected) = (Run::new(asked.compiled, page), RunResult { place: checked.place, ..nothing_but(checked.refusal) });
            let ran = run_with(function, &run, 1, run.least(), asked.filling());
            ran.refuses(expected, asked.filling()).map_err(|how| format!("  nodes {:?}\n{how}", page.nodes))?;
        }
    }
    Ok(())
}

// Bytes of which one is changed, or the last are left out, are refused as the check of bytes refuses them, and nothing changes; where they are a sheet still, nothing is refused.
fn ask_damaged_bytes(function: RunFunction, asked: &Asked) -> Result<(), String> {
    let (compiled, turn) = (asked.compiled, asked.turn());
    let mut damaged = vec![compiled[..turn % compiled.len()].to_vec(), [compiled, &[0]].concat()];
    for place in (turn % DAMAGED_BYTES..compiled.len()).step_by(DAMAGED_BYTES) {
        let mut bytes = compiled.to_vec();
        bytes[place] ^= 1 << (turn + place) % 8;
        damaged.push(bytes);
    }
    for bytes in damaged.iter().filter(|bytes| bytes.len() <= COMPILED_LIMIT) {
        let checked = engine::check_bytes(bytes);
        let run = Run::new(bytes, asked.styled.page);
        let ran = run_with(function, &run, 1, run.least(), asked.filling());
        let told = if checked.refusal == 0 {
            let read = ran.result.refusal == 0 && ran.is_clear_beyond(asked.styled.page.rows());
            if read { Ok(()) } else { Err(format!("  this refuses what is a sheet, or leaves something: {:?}", ran.result)) }
        } else {
            ran.refuses(RunResult { place: checked.place, ..nothing_but(checked.refusal) }, asked.filling())
        };
        told.map_err(|how| format!("  bytes {bytes:?}\n{how}"))?;
    }
    Ok(())
}

/// The texts of a run: those of the style attributes of all elements, in page order.
pub fn texts_of_run(page: &Page, document_styles: bool) -> Vec<u8> {
    if !document_styles {
        return vec![];
    }
    page.elements().into_iter().flat_map(|row| attribute_texts(page, row)).collect()
}

// The row of an element against html2text's, and against that of the style call.
fn row_differs(asked: &Asked, ran: &Ran, row: usize, switch: u32, html2text: &StyleRow) -> Option<String> {
    let Some(this) = ran.style_row(asked.compiled, row) else {
        return Some("  a content of this lies neither within the compiled bytes nor within its texts".to_string());
    };
    if this != *html2text {
        return Some(format!("  html2text: {}\n  this:      {}", show(html2text), show(&this)));
    }
    let called = say(STYLE_CALL.expect("a question that is there"), &asked.styled, row, switch, 0).style_row();
    if called.as_ref() != Some(&this) {
        return Some(format!("  style call: {:?}\n  this:       {}", called.map(|row| show(&row)), show(&this)));
    }
    None
}

/// Whether a run leaves what it should: the rows, the texts, and zeros.
pub fn wrong(asked: &Asked, ran: &Ran, switch: u32, styles: &[StyleRow]) -> Option<String> {
    let page = asked.styled.page;
    let texts = texts_of_run(page, switch != 0);
    if ran.result != (RunResult { texts: texts.len(), ..nothing_but(0) }) || ran.texts[..texts.len()] != *texts {
        return Some(format!("  expected: {:?}\n  this:     {:?}", String::from_utf8_lossy(&texts), ran.result));
    }
    if !ran.is_clear_beyond(page.rows()) {
        return Some("  this leaves something in the buffers beyond its answer".to_string());
    }
    if let Some(row) = (0..page.rows()).find(|&row| page.kind(row) != ELEMENT_KIND && !is_clear(ran.row(row))) {
        return Some(format!("  row {row}, which is no element, is not zeros"));
    }
    let rows = page.elements().into_iter().zip(styles);
    rows.map(|(row, style)| row_differs(asked, ran, row, switch, style).map(|how| format!("  row {row}, document styles {switch}\n{how}"))).find_map(|how| how)
}

fn ask_rows(function: RunFunction, asked: &Asked, document_styles: bool) -> Result<(), String> {
    let styles = asked::computed_styles(asked.styled.sheets, asked.styled.page, document_styles).ok_or("  html2text panics while it computes styles")?;
    let (run, turn) = (asked.run(), asked.turn() + usize::from(document_styles));
    let switch = if document_styles { ON[turn % ON.len()] } else { 0 };
    let ran = run_with(function, &run, switch, run.least().longer(MORE[turn % MORE.len()]), asked.filling());
    wrong(asked, &ran, switch, &styles).map_or(Ok(()), Err)
}

/// The compiled bytes of three sheets, by this engine; None where it refuses them.
pub fn compile(sheets: [&str; 3]) -> Option<Vec<u8>> {
    let mut stores = Stores::new(sheets.iter().map(|s| s.len()).sum(), 0);
    let mut compiled = vec![0; COMPILED_LIMIT];
    let result = stores.compile(sheets.map(str::as_bytes), &mut compiled);
    compiled.truncate(result.bytes);
    (result.refusal == 0).then_some(compiled)
}

fn ask_run(input: &Input) -> Answer {
    let function = RUN_CALL.expect("a question that is there");
    let page = pages::page(&input.tree);
    let styled = Styled { sheets: [&input.texts[0], &input.texts[1], &input.texts[2]], page: &page };
    let read: Vec<_> = styled.sheets.iter().map(|s| asked::read_sheet(s)).collect();
    let Some(compiled) = compile(styled.sheets) else {
        let panics = read.iter().any(Option::is_none);
        return if panics { Answer::SamePanic } else { Answer::Different("  this does not compile what html2text reads".to_string()) };
    };
    let asked = Asked { styled, compiled: &compiled };
    let refusals = [ask_with_too_little, ask_damaged_pages, ask_damaged_bytes];
    if let Err(how) = refusals.iter().try_for_each(|ask| ask(function, &asked)) {
        return Answer::Different(how);
    }
    if read.iter().flatten().flat_map(|r| &r.rules).flat_map(|r| &r.selectors).any(may_overflow) {
        return Answer::Outside;
    }
    match ask_rows(function, &asked, true).and_then(|()| ask_rows(function, &asked, false)) {
        Ok(()) => Answer::Same,
        Err(how) => Answer::Different(how),
    }
}
