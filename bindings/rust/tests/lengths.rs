//! The least lengths are the least: each call takes stores of these lengths, and refuses any of them that is shorter by one.
use hicsolmab::layout::{NO_REFUSAL, SHORT_STORE, STYLE_ROW_WIDTH};
use hicsolmab::{Page, Settings, Sheets, calls, lengths};

const SHEETS: Sheets<'static> = Sheets { agent: b"p { color: red }", user: b"q::before { content: 'x' }", author: b".k:nth-child(2n+1) { display: none }" };

fn page() -> Page {
    let mut page = Page::new();
    page.open("p", [("class", "k"), ("style", "color: blue")]).unwrap();
    page.other().unwrap();
    page.open("q", []).unwrap();
    page
}

/// Stores for so many bytes, of which the one of this number has `less` fewer.
fn refusal(bytes: usize, short: usize, less: usize, call: impl FnOnce(calls::Stores<'_>) -> u32) -> u32 {
    let of = |store: usize, least: usize| if store == short { least - less } else { least };
    call(calls::Stores {
        rules: &mut vec![7; of(0, lengths::rules(bytes))],
        tokens: &mut vec![7; of(1, lengths::tokens(bytes))],
        brackets: &mut vec![7; of(2, lengths::brackets(bytes))],
        texts: &mut vec![7; of(3, lengths::texts(bytes))],
    })
}

/// A call over stores of the least lengths for so many bytes, then with each of the four shorter by one.
#[track_caller]
fn assert_least(bytes: usize, mut call: impl FnMut(calls::Stores<'_>) -> u32) {
    for store in 0..4 {
        assert_eq!(refusal(bytes, store, 0, &mut call), NO_REFUSAL);
        assert_eq!(refusal(bytes, store, 1, &mut call), SHORT_STORE);
    }
}

#[test]
fn the_length_of_a_height() {
    let value = b"+ 1.5px";
    assert_least(lengths::height_length_bytes(value.len()), |stores| calls::height_length(value, stores).refusal);
}

#[test]
fn reading_a_sheet() {
    let sheet = SHEETS.author;
    assert_least(lengths::read_sheet_bytes(sheet.len()), |stores| calls::read_sheet(sheet, stores).refusal);
}

#[test]
fn compiling() {
    let Sheets { agent, user, author } = SHEETS;
    let mut compiled = [0; 200];
    let bytes = lengths::compile_bytes(agent.len(), user.len(), author.len());
    assert_least(bytes, |stores| calls::compile(SHEETS, &mut compiled, stores).refusal);
}

#[test]
fn styling() {
    let page = page();
    let rows = page.rows();
    let Sheets { agent, user, author } = SHEETS;
    let bytes = lengths::style_bytes(agent.len(), user.len(), author.len(), rows.attributes.len(), rows.text.len());
    for call in [calls::style, calls::style_book] {
        let mut out = [0; STYLE_ROW_WIDTH];
        assert_least(bytes, |stores| call(SHEETS, rows, 1, Settings::default(), &mut out, stores).refusal);
        let short = &mut out[1..];
        assert_eq!(refusal(bytes, 0, 0, |stores| call(SHEETS, rows, 1, Settings::default(), short, stores).refusal), SHORT_STORE);
    }
}

#[test]
fn running() {
    let page = page();
    let page = page.rows();
    let compiled = SHEETS.compile().unwrap().into_bytes();
    let bytes = lengths::run_bytes(page.attributes.len(), page.text.len());
    let mut rows = vec![7; lengths::rows(page.nodes.len())];
    let mut state = vec![7; lengths::state(compiled.len())];
    assert_least(bytes, |stores| calls::run(&compiled, page, Settings::default(), &mut rows, &mut state, stores).refusal);
    let run = |rows: &mut [u32], state: &mut [u8]| refusal(bytes, 0, 0, |stores| calls::run(&compiled, page, Settings::default(), rows, state, stores).refusal);
    assert_eq!(run(&mut rows[1..], &mut state), SHORT_STORE);
    assert_eq!(run(&mut rows, &mut state[1..]), SHORT_STORE);
}

#[test]
fn lists_count_by_the_rows_that_are_whole() {
    assert_eq!(lengths::run_bytes(4 + 3, 10), 10 + 2);
    assert_eq!(lengths::rows(6 + 5), STYLE_ROW_WIDTH);
}
