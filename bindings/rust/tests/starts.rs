//! The start of a declaration names its byte: in a sheet, in an attribute, where a height hides, and where it is inherited; in runs and in both style calls.
use hicsolmab::{Origin, Page, Settings, Sheets, Style};

/// The same question of a run and of both style calls, whose answers are equal.
#[track_caller]
fn of_all<T: PartialEq + std::fmt::Debug>(sheets: Sheets<'_>, page: &Page, row: usize, asked: impl Fn(Style<'_>) -> T) -> T {
    let settings = Settings::default();
    let compiled = sheets.compile().unwrap();
    let run = asked(compiled.run(page, settings).unwrap().get(row).unwrap());
    assert_eq!(run, asked(sheets.style(page, row, settings).unwrap().style()));
    assert_eq!(run, asked(sheets.style_book(page, row, settings).unwrap().style()));
    run
}

fn color_start(style: Style<'_>) -> Option<usize> {
    style.main().color_declaration().map(|declaration| declaration.start)
}

fn display_start(style: Style<'_>) -> Option<usize> {
    style.main().display_declaration().map(|declaration| declaration.start)
}

fn page_of(attributes: &[(&str, &str)]) -> Page {
    let mut page = Page::new();
    page.open("p", attributes.iter().copied()).unwrap();
    page
}

fn author(sheet: &str) -> Sheets<'_> {
    Sheets { author: sheet.as_bytes(), ..Sheets::default() }
}

#[test]
fn the_first_byte_of_the_name() {
    let page = page_of(&[]);
    assert_eq!(of_all(author("p{color:red}"), &page, 1, color_start), Some(2));
    // Behind white space and comments, an escape included.
    assert_eq!(of_all(author(" /**/p{ /*c*/\\63olor:red}"), &page, 1, color_start), Some(13));
    // Bytes are counted, not characters.
    assert_eq!(of_all(author("/*\u{e9}*/p{zz:'\u{e9}';color:red}"), &page, 1, color_start), Some(16));
    // The one that wins, of two in a rule and of two rules.
    assert_eq!(of_all(author("p{color:blue;color:red}"), &page, 1, color_start), Some(13));
    assert_eq!(of_all(author("p{color:red!important}p{color:blue}"), &page, 1, color_start), Some(2));
}

#[test]
fn in_the_sheet_of_its_origin() {
    let page = page_of(&[]);
    let sheets = Sheets { agent: b"p{background:red;white-space:pre}", user: b"/*user*/p{content:'x'}", author: b"p{color:red}" };
    let all = |style: Style<'_>| {
        let main = style.main();
        let [background, color] = [main.background_color_declaration(), main.color_declaration()].map(|found| found.map(|d| (d.origin, d.start)));
        let white_space = main.white_space_declaration().map(|d| (d.origin, d.start));
        (background, white_space, main.content_declaration().map(|d| (d.origin, d.start)), color)
    };
    let expected = (Some((Origin::Agent, 2)), Some((Origin::Agent, 17)), Some((Origin::User, 10)), Some((Origin::Author, 2)));
    assert_eq!(of_all(sheets, &page, 1, all), expected);
}

#[test]
fn in_the_value_of_an_attribute() {
    let page = page_of(&[("class", "k"), ("style", " display:none; color:red")]);
    assert_eq!(of_all(author(".k{color:blue}"), &page, 1, color_start), Some(15));
    assert_eq!(of_all(author(".k{color:blue}"), &page, 1, display_start), Some(1));
    // The second `style` attribute, whose declaration counts in its own value.
    let page = page_of(&[("style", "zz:1;color:blue"), ("style", "color:red")]);
    assert_eq!(of_all(Sheets::default(), &page, 1, color_start), Some(0));
    // `color` and `bgcolor` have no declaration.
    let page = page_of(&[("bgcolor", "  red"), ("color", "  red")]);
    assert_eq!(of_all(Sheets::default(), &page, 1, color_start), Some(0));
    let background = |style: Style<'_>| style.main().background_color_declaration().map(|declaration| declaration.start);
    assert_eq!(of_all(Sheets::default(), &page, 1, background), Some(0));
}

#[test]
fn of_the_first_height_that_is_zero() {
    let page = page_of(&[]);
    assert_eq!(of_all(author("p{overflow:hidden;height:5px;max-height:0;height:0}"), &page, 1, display_start), Some(29));
    assert_eq!(of_all(author("p{height:0;overflow:hidden}"), &page, 1, display_start), Some(2));
    assert_eq!(of_all(author("p{height:0}"), &page, 1, display_start), None);
    // It stands behind a `display` of the same rule, so it wins.
    assert_eq!(of_all(author("p{height:0;overflow:hidden;display:none}"), &page, 1, display_start), Some(2));
    let page = page_of(&[("style", "overflow:hidden; max-height:0")]);
    assert_eq!(of_all(Sheets::default(), &page, 1, display_start), Some(17));
}

#[test]
fn with_what_is_inherited() {
    let mut page = page_of(&[]);
    let child = page.open("b", []).unwrap();
    page.close();
    let other = page.open("i", []).unwrap();
    let sheet = author("p{zz:1;color:red}i{color:blue}");
    assert_eq!(of_all(sheet, &page, child, color_start), Some(7));
    assert_eq!(of_all(sheet, &page, other, color_start), Some(19));
}
