//! Every refusal: its number, text and place, and its sentence.
use hicsolmab::layout::{
    ATTRIBUTE_LIMIT, BAD_BYTES, BAD_ROW, BAD_TEXT, COMPILED_LIMIT, DEPTH_LIMIT, NO_ELEMENT, NO_ROOM, NODE_LIMIT, NODE_WIDTH, NOT_UTF8, PANIC, SHEET_LIMIT,
    SHORT_STORE, TEXT_LIMIT, TOO_LARGE, TOO_LONG,
};
use hicsolmab::{Compiled, Origin, Page, Reason, Refusal, Settings, Sheets, Workspace, calls, lengths, read_sheet};

const NOT_TEXT: &[u8] = b"p{color:red}\xff";

/// The same sheet as that of each origin, the others empty.
fn in_turn(sheet: &[u8]) -> [(Origin, Sheets<'_>); 3] {
    [
        (Origin::Agent, Sheets { agent: sheet, ..Sheets::default() }),
        (Origin::User, Sheets { user: sheet, ..Sheets::default() }),
        (Origin::Author, Sheets { author: sheet, ..Sheets::default() }),
    ]
}

/// What every call with three sheets refuses: compiling, and both style calls on a page of one element.
fn refused(sheets: &Sheets<'_>) -> [Refusal; 3] {
    let mut page = Page::new();
    let row = page.open("p", []).unwrap();
    [sheets.compile().unwrap_err(), sheets.style(&page, row, Settings::default()).unwrap_err(), sheets.style_book(&page, row, Settings::default()).unwrap_err()]
}

#[track_caller]
fn assert_refusal(refusal: Refusal, number: u32, reason: Reason, text: usize, place: usize, sentence: &str) {
    assert_eq!((refusal.number(), refusal.reason(), refusal.text(), refusal.place()), (number, reason, text, place));
    assert_eq!(refusal.to_string(), sentence);
}

#[test]
fn a_sheet_over_its_limit() {
    let longest = vec![b' '; SHEET_LIMIT];
    let longer = vec![b' '; SHEET_LIMIT + 1];
    for (_, sheets) in in_turn(&longest) {
        assert!(sheets.compile().is_ok());
    }
    for (_, sheets) in in_turn(&longer) {
        for refusal in refused(&sheets) {
            assert_refusal(refusal, TOO_LONG, Reason::TooLong, 0, 0, "one of the sheets has more than 32768 bytes");
            assert_eq!(refusal.sheet(), None);
        }
    }
    assert!(read_sheet(&longest).is_ok());
    assert_refusal(read_sheet(&longer).unwrap_err(), TOO_LONG, Reason::TooLong, 0, 0, "the sheet has more than 32768 bytes");
}

#[test]
fn compiled_bytes_over_their_limit() {
    let refusal = Compiled::from_bytes(vec![0; COMPILED_LIMIT + 1]).unwrap_err();
    assert_refusal(refusal, TOO_LONG, Reason::TooLong, 0, 0, "the compiled sheet has more than 65536 bytes");
    let refusal = Compiled::from_bytes(vec![0; COMPILED_LIMIT]).unwrap_err();
    assert_eq!(refusal.reason(), Reason::BadBytes);
}

#[test]
fn a_buffer_too_short() {
    let sheet = b"p{color:red}";
    let bytes = lengths::read_sheet_bytes(sheet.len());
    let (mut rules, mut tokens) = (vec![0; lengths::rules(bytes)], vec![0; lengths::tokens(bytes) - 1]);
    let (mut brackets, mut texts) = (vec![0; lengths::brackets(bytes)], vec![0; lengths::texts(bytes)]);
    let stores = calls::Stores { rules: &mut rules, tokens: &mut tokens, brackets: &mut brackets, texts: &mut texts };
    let refusal = calls::read_sheet(sheet, stores).accepted().unwrap_err();
    assert_refusal(refusal, SHORT_STORE, Reason::ShortStore, 0, 0, "a buffer lent to the call is shorter than its least length");
}

#[test]
fn a_sheet_that_is_not_utf8() {
    for (_, sheets) in in_turn(NOT_TEXT) {
        for refusal in refused(&sheets) {
            assert_refusal(refusal, NOT_UTF8, Reason::NotUtf8, 0, 0, "one of the sheets is not UTF-8");
        }
    }
    assert_refusal(read_sheet(NOT_TEXT).unwrap_err(), NOT_UTF8, Reason::NotUtf8, 0, 0, "the sheet is not UTF-8");
}

#[test]
fn a_sheet_that_html2text_panics_on() {
    let sheet = b"p{} a:nth-child(2147483648";
    let names = ["the agent sheet", "the user sheet", "the author sheet"];
    for (text, (origin, sheets)) in in_turn(sheet).into_iter().enumerate() {
        let sentence = format!("{} has an nth-child number above 2147483647 at byte 16", names[text]);
        for refusal in refused(&sheets) {
            assert_refusal(refusal, PANIC, Reason::Panic, text, 16, &sentence);
            assert_eq!(refusal.sheet(), Some(origin));
        }
    }
    let refusal = read_sheet(sheet).unwrap_err();
    let sentence = "the sheet has an nth-child number above 2147483647 at byte 16";
    assert_refusal(refusal, PANIC, Reason::Panic, 0, 16, sentence);
    assert_eq!(refusal.sheet(), None);
}

#[test]
fn a_sheet_that_is_cut_off_behind_an_equals_sign() {
    let read = read_sheet(b"p{} a[name=").unwrap();
    assert_eq!((read.rules, read.stop), (1, 4));
    for (_, sheets) in in_turn(b"p{} a[name=") {
        assert!(sheets.compile().is_ok());
    }
}

#[test]
fn an_nth_child_number_over_its_limit() {
    assert!(read_sheet(b"p:nth-child(2147483647){}").is_ok());
    let refusal = read_sheet(b"p:nth-child(2147483648){}").unwrap_err();
    assert_eq!((refusal.reason(), refusal.place()), (Reason::Panic, 12));
}

#[test]
fn a_page_over_a_limit() {
    let sentence = "the page has more than 4096 nodes, 16384 attributes or 65536 bytes of names and values, or a list that is no whole count of rows";
    let others = |count: usize| {
        let mut nodes = vec![0; NODE_WIDTH];
        for _ in 1..count {
            nodes.extend([2, 0, 0, 0, 0, 0]);
        }
        nodes
    };
    assert!(Page::from_rows(others(NODE_LIMIT), Vec::new(), Vec::new()).is_ok());
    let too_many = Page::from_rows(others(NODE_LIMIT + 1), Vec::new(), Vec::new()).unwrap_err();
    let too_many_attributes = Page::from_rows(others(1), vec![0; 4 * (ATTRIBUTE_LIMIT + 1)], Vec::new()).unwrap_err();
    let too_much_text = Page::from_rows(others(1), Vec::new(), vec![0; TEXT_LIMIT + 1]).unwrap_err();
    let no_whole_node = Page::from_rows(vec![0; NODE_WIDTH + 1], Vec::new(), Vec::new()).unwrap_err();
    let no_whole_attribute = Page::from_rows(others(1), vec![0; 3], Vec::new()).unwrap_err();
    for refusal in [too_many, too_many_attributes, too_much_text, no_whole_node, no_whole_attribute] {
        assert_refusal(refusal, TOO_LARGE, Reason::TooLarge, 0, 0, sentence);
    }
}

#[test]
fn a_row_against_the_rules() {
    // A parent that comes later.
    let nodes = vec![0, 0, 0, 0, 0, 0, 2, 0, 0, 0, 0, 0, 2, 3, 0, 0, 0, 0];
    let refusal = Page::from_rows(nodes, Vec::new(), Vec::new()).unwrap_err();
    let sentence = "row 2 of the page is deeper than 64, or does not follow on from the rows before it";
    assert_refusal(refusal, BAD_ROW, Reason::BadRow, 0, 2, sentence);
    // No row at all.
    let refusal = Page::from_rows(Vec::new(), Vec::new(), Vec::new()).unwrap_err();
    assert_eq!((refusal.reason(), refusal.place()), (Reason::BadRow, 0));
}

#[test]
fn a_text_of_a_page_that_cannot_be_read() {
    let nodes = || vec![0, 0, 0, 0, 0, 0, 1, 0, 0, 2, 0, 0];
    let sentence = "a name or value in row 1 of the page ends beyond the page's text, or is not UTF-8";
    for text in [&b"p"[..], b"p\xff"] {
        let refusal = Page::from_rows(nodes(), Vec::new(), text.to_vec()).unwrap_err();
        assert_refusal(refusal, BAD_TEXT, Reason::BadText, 0, 1, sentence);
    }
    assert!(Page::from_rows(nodes(), Vec::new(), b"em".to_vec()).is_ok());
}

#[test]
fn a_row_that_is_no_element() {
    let mut page = Page::new();
    page.open("p", []).unwrap();
    let other = page.other().unwrap();
    let sheets = Sheets::default();
    for row in [0, other, page.row_count(), usize::MAX] {
        for refusal in [sheets.style(&page, row, Settings::default()), sheets.style_book(&page, row, Settings::default())].map(Result::unwrap_err) {
            assert_refusal(refusal, NO_ELEMENT, Reason::NoElement, 0, 0, "the row asked for is no element of the page");
        }
    }
}

#[test]
fn bytes_that_are_no_compiled_sheet() {
    let refusals = [(&b""[..], 0), (b"\x01\x83", 1), (b"\x01\x04\x00\x00\x00", 1), (b"\x00\x00", 1), (b"\x01\x03\x00\x01\x02\x05p", 5)];
    // What `p{color:red}` was compiled to before styles had a start: its colour stands where the slot is looked for.
    let void = (&b"\x01\x03\x00\x01\x02\x01p\x01\x00\x00\x80\x80\xfc\x07"[..], 10);
    // A slot behind the last, a visibility behind the last, and one that is not there.
    let slots = [(&b"\x01\x03\x00\x00\x01\x00\x02\x06\x01"[..], 7), (b"\x01\x03\x00\x00\x01\x00\x02\x05\x02", 8), (b"\x01\x03\x00\x00\x01\x00\x02\x05", 8)];
    for (bytes, place) in refusals.into_iter().chain([void]).chain(slots) {
        let refusal = Compiled::from_bytes(bytes.to_vec()).unwrap_err();
        let sentence = format!("the bytes are no compiled sheet: they cannot be read on from byte {place}");
        assert_refusal(refusal, BAD_BYTES, Reason::BadBytes, 0, place, &sentence);
    }
}

#[test]
fn a_compiled_sheet_over_its_limit() {
    // Each selector is compiled with all styles of its rule.
    let sheet = format!("{}p{{{}}}", "p,".repeat(1000), "color:red;".repeat(1000));
    let sheets = Sheets { author: sheet.as_bytes(), ..Sheets::default() };
    let mut compiled = Sheets { author: b"p{color:red}", ..Sheets::default() }.compile().unwrap();
    let refusal = sheets.compile_into(&mut compiled, &mut Workspace::new()).unwrap_err();
    let sentence = "the compiled sheet would have more than 65536 bytes, or more than its buffer";
    assert_refusal(refusal, NO_ROOM, Reason::NoRoom, 0, 0, sentence);
    assert_eq!(compiled, Compiled::default());
}

#[test]
fn what_was_compiled_before_is_gone_after_any_refusal() {
    for (_, sheets) in [NOT_TEXT, b"a:nth-child(2147483648"].into_iter().flat_map(in_turn) {
        let mut compiled = Sheets { author: b"p{color:red}", ..Sheets::default() }.compile().unwrap();
        sheets.compile_into(&mut compiled, &mut Workspace::new()).unwrap_err();
        assert_eq!(compiled, Compiled::default());
    }
}

#[test]
fn a_page_that_grows_over_a_limit_stays_as_it_was() {
    let mut page = Page::new();
    for _ in 1..NODE_LIMIT {
        page.other().unwrap();
    }
    let full = page.clone();
    assert_eq!(page.other().unwrap_err().reason(), Reason::TooLarge);
    assert_eq!(page.open("p", []).unwrap_err().reason(), Reason::TooLarge);
    assert_eq!(page, full);

    let mut page = Page::new();
    page.open("p", std::iter::repeat_n(("", ""), ATTRIBUTE_LIMIT)).unwrap();
    let full = page.clone();
    assert_eq!(page.open("p", [("", "")]).unwrap_err().reason(), Reason::TooLarge);
    assert_eq!(page, full);
    page.open("p", []).unwrap();

    let long = "x".repeat(TEXT_LIMIT - 2);
    let mut page = Page::new();
    page.open("p", [("", long.as_str())]).unwrap();
    let full = page.clone();
    assert_eq!(page.open("b", [("a", "")]).unwrap_err().reason(), Reason::TooLarge);
    assert_eq!(page.open("b", [("", "a")]).unwrap_err().reason(), Reason::TooLarge);
    assert_eq!(page.open("em", []).unwrap_err().reason(), Reason::TooLarge);
    assert_eq!(page, full);
    page.open("b", []).unwrap();
}

#[test]
fn a_page_has_its_greatest_depth() {
    let mut page = Page::new();
    for _ in 0..DEPTH_LIMIT {
        page.open("p", []).unwrap();
    }
    let deepest = page.clone();
    for refusal in [page.open("p", []).unwrap_err(), page.other().unwrap_err()] {
        assert_eq!((refusal.number(), refusal.place()), (BAD_ROW, DEPTH_LIMIT + 1));
    }
    assert_eq!(page, deepest);
    assert_eq!(page.close(), Some(DEPTH_LIMIT));
    page.other().unwrap();
    let rows = page.rows();
    assert!(calls::check_page(rows).accepted().is_ok());
}

#[test]
fn a_refusal_is_an_error() {
    fn compile(sheets: &Sheets<'_>) -> Result<Compiled, Box<dyn std::error::Error + Send + Sync>> {
        Ok(sheets.compile()?)
    }
    let error = compile(&Sheets { user: NOT_TEXT, ..Sheets::default() }).unwrap_err();
    assert_eq!(error.to_string(), "one of the sheets is not UTF-8");
    assert!(error.downcast_ref::<Refusal>().is_some());
}
