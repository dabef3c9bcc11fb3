//! Every getter of a style, on the element, its `::before` and its `::after`, in runs and in both style calls.
use hicsolmab::{Color, Declaration, Display, Origin, Page, Record, Settings, Sheets, Specificity, Style, Visibility, WhiteSpace, Workspace};

const RED: Color = Color { red: 255, green: 0, blue: 0 };
const BLUE: Color = Color { red: 0, green: 0, blue: 255 };

/// What a record says, each getter's answer beside the others.
type Said<'a> = (
    Option<Declaration<Color>>,
    Option<Declaration<Color>>,
    Option<Declaration<Display>>,
    Option<Declaration<WhiteSpace>>,
    Option<Declaration<&'a [u8]>>,
    Option<Declaration<Visibility>>,
);

/// All that a record says. The getters of values are held against those of declarations on the way.
#[track_caller]
fn said(record: Record<'_>) -> Said<'_> {
    assert_eq!(record.color(), record.color_declaration().map(|declaration| declaration.value));
    assert_eq!(record.background_color(), record.background_color_declaration().map(|declaration| declaration.value));
    assert_eq!(record.display(), record.display_declaration().map(|declaration| declaration.value));
    assert_eq!(record.is_hidden(), record.display_declaration().is_some());
    assert_eq!(record.white_space(), record.white_space_declaration().map(|declaration| declaration.value));
    assert_eq!(record.content(), record.content_declaration().map(|declaration| declaration.value));
    assert_eq!(record.visibility(), record.visibility_declaration().map(|declaration| declaration.value));
    assert_eq!(record.is_invisible(), record.visibility() == Some(Visibility::Hidden));
    (
        record.color_declaration(),
        record.background_color_declaration(),
        record.display_declaration(),
        record.white_space_declaration(),
        record.content_declaration(),
        record.visibility_declaration(),
    )
}

/// All that a style says. Its own getters are held against those of its main record on the way.
#[track_caller]
fn all_said(style: Style<'_>) -> (Said<'_>, Option<Said<'_>>, Option<Said<'_>>) {
    let main = style.main();
    assert_eq!(style.color(), main.color());
    assert_eq!(style.background_color(), main.background_color());
    assert_eq!(style.is_hidden(), main.is_hidden());
    assert_eq!(style.white_space(), main.white_space());
    assert_eq!(style.content(), main.content());
    assert_eq!(style.visibility(), main.visibility());
    assert_eq!(style.is_invisible(), main.is_invisible());
    (said(main), style.before().map(said), style.after().map(said))
}

/// Sheets in which each origin has something to say, and each property is declared for each record.
const AGENT: &[u8] = b"p { color: red } b { white-space: pre } p::before { background-color: #010203 }";
const USER: &[u8] =
    b".note { background-color: blue; content: 'main'; visibility: visible } p::before { content: 'before'; color: #123456; visibility: hidden }";
const AUTHOR: &[u8] =
    b"div > p#first[title]:nth-child(1) { white-space: pre-wrap !important } p::after { content: ''; display: none; white-space: normal } .gone { display: none }";

const OWN: &str = "content: 'own'; color: blue !important; display: none";

/// `<div><p id=first class="note big" title=x>..</p><p class=gone><b></b></p><p style=..></p></div>`
fn page() -> Page {
    let mut page = Page::new();
    page.open("div", []).unwrap();
    page.open("p", [("id", "first"), ("class", "note big"), ("title", "x")]).unwrap();
    page.other().unwrap();
    page.close();
    page.open("p", [("class", "gone")]).unwrap();
    page.open("b", []).unwrap();
    page.close();
    page.close();
    page.open("p", [("style", OWN)]).unwrap();
    page.close();
    page.open("font", [("color", "#00ff00"), ("bgcolor", "red")]).unwrap();
    page
}

const DIV: usize = 1;
const FIRST: usize = 2;
const GONE: usize = 4;
const IN_GONE: usize = 5;
const STYLED: usize = 6;
const FONT: usize = 7;

fn sheets() -> Sheets<'static> {
    Sheets { agent: AGENT, user: USER, author: AUTHOR }
}

/// The first byte of a text in another.
fn byte_of(text: &[u8], part: &str) -> usize {
    text.windows(part.len()).position(|window| window == part.as_bytes()).unwrap()
}

/// A declaration of a rule, which is the first in the sheet of its origin that is written so.
fn rule<T>(value: T, origin: Origin, written: &str, ids: u32, classes: u32, types: u32) -> Declaration<T> {
    let sheet = match origin {
        Origin::Agent => AGENT,
        Origin::User => USER,
        Origin::Author => AUTHOR,
    };
    Declaration { value, origin, inline: false, specificity: Specificity { ids, classes, types }, important: false, start: byte_of(sheet, written) }
}

/// A declaration of an attribute that starts at a byte of the attribute's value.
fn inline<T>(value: T, start: usize) -> Declaration<T> {
    Declaration { value, origin: Origin::Author, inline: true, specificity: Specificity::default(), important: false, start }
}

#[test]
fn each_getter_of_the_element() {
    let compiled = sheets().compile().unwrap();
    let page = page();
    let styles = compiled.run(&page, Settings::default()).unwrap();
    let (main, _, _) = all_said(styles.get(FIRST).unwrap());
    let (color, background, display, white_space, content, visibility) = main;
    assert_eq!(color, Some(rule(RED, Origin::Agent, "color: red", 0, 0, 1)));
    assert_eq!(background, Some(rule(BLUE, Origin::User, "background-color: blue", 0, 1, 0)));
    assert_eq!(display, None);
    let important = Declaration { important: true, ..rule(WhiteSpace::PreWrap, Origin::Author, "white-space: pre-wrap", 1, 2, 2) };
    assert_eq!(white_space, Some(important));
    assert_eq!(content, Some(rule(&b"main"[..], Origin::User, "content: 'main'", 0, 1, 0)));
    assert_eq!(visibility, Some(rule(Visibility::Visible, Origin::User, "visibility: visible", 0, 1, 0)));
}

#[test]
fn each_getter_of_before_and_after() {
    let compiled = sheets().compile().unwrap();
    let page = page();
    let styles = compiled.run(&page, Settings::default()).unwrap();
    let (_, before, after) = all_said(styles.get(FIRST).unwrap());
    let (color, background, display, white_space, content, visibility) = before.unwrap();
    assert_eq!(color, Some(rule(Color { red: 0x12, green: 0x34, blue: 0x56 }, Origin::User, "color: #123456", 0, 0, 1)));
    assert_eq!(background, Some(rule(Color { red: 1, green: 2, blue: 3 }, Origin::Agent, "background-color: #010203", 0, 0, 1)));
    assert_eq!((display, white_space), (None, None));
    assert_eq!(content, Some(rule(&b"before"[..], Origin::User, "content: 'before'", 0, 0, 1)));
    assert_eq!(visibility, Some(rule(Visibility::Hidden, Origin::User, "visibility: hidden", 0, 0, 1)));
    let (color, background, display, white_space, content, visibility) = after.unwrap();
    assert_eq!((color, background), (None, None));
    assert_eq!(display, Some(rule(Display::None, Origin::Author, "display: none; white", 0, 0, 1)));
    assert_eq!(white_space, Some(rule(WhiteSpace::Normal, Origin::Author, "white-space: normal", 0, 0, 1)));
    assert_eq!(content, Some(rule(&b""[..], Origin::Author, "content: ''", 0, 0, 1)));
    assert_eq!(visibility, None);
}

#[test]
fn an_element_that_nothing_is_declared_for() {
    let compiled = sheets().compile().unwrap();
    let page = page();
    let styles = compiled.run(&page, Settings::default()).unwrap();
    assert_eq!(all_said(styles.get(DIV).unwrap()), ((None, None, None, None, None, None), None, None));
}

#[test]
fn what_is_in_a_hidden_element_is_hidden() {
    let compiled = sheets().compile().unwrap();
    let page = page();
    let styles = compiled.run(&page, Settings::default()).unwrap();
    let hidden: Vec<usize> = styles.elements().filter(|(_, style)| style.is_hidden()).map(|(row, _)| row).collect();
    assert_eq!(hidden, [GONE, IN_GONE, STYLED]);
    // Its other properties are its own.
    let (main, _, _) = all_said(styles.get(IN_GONE).unwrap());
    assert_eq!(main.3, Some(rule(WhiteSpace::Pre, Origin::Agent, "white-space: pre", 0, 0, 1)));
}

#[test]
fn attributes_count_where_document_styles_do() {
    let compiled = sheets().compile().unwrap();
    let page = page();
    let styles = compiled.run(&page, Settings::default()).unwrap();
    let (main, _, _) = all_said(styles.get(STYLED).unwrap());
    let [color, display, content] = ["color: blue", "display: none", "content: 'own'"].map(|part| byte_of(OWN.as_bytes(), part));
    let expected = (Some(inline(BLUE, color)), Some(inline(Display::None, display)), Some(inline(&b"own"[..], content)));
    assert_eq!((main.0, main.2, main.4), expected);
    let (main, _, _) = all_said(styles.get(FONT).unwrap());
    assert_eq!((main.0, main.1), (Some(inline(Color { red: 0, green: 255, blue: 0 }, 0)), Some(inline(RED, 0))));

    let styles = compiled.run(&page, Settings::default().with_document_styles(false)).unwrap();
    let (main, _, _) = all_said(styles.get(STYLED).unwrap());
    assert_eq!((main.0, main.2, main.4), (Some(rule(RED, Origin::Agent, "color: red", 0, 0, 1)), None, None));
    assert_eq!(all_said(styles.get(FONT).unwrap()).0, (None, None, None, None, None, None));
}

#[test]
fn the_book_order_weighs_otherwise() {
    let page = page();
    let crates = sheets().style(&page, STYLED, Settings::default()).unwrap();
    let blue = inline(BLUE, byte_of(OWN.as_bytes(), "color: blue"));
    assert_eq!(crates.style().main().color_declaration(), Some(blue));
    let book = sheets().style_book(&page, STYLED, Settings::default()).unwrap();
    assert_eq!(book.style().main().color_declaration(), Some(Declaration { important: true, ..blue }));
    // A colour attribute stands before all author rules there, as if it were one of specificity 0.
    let font = sheets().style_book(&page, FONT, Settings::default()).unwrap();
    let green = Color { red: 0, green: 255, blue: 0 };
    let light = Declaration { inline: false, ..inline(green, 0) };
    assert_eq!(font.style().main().color_declaration(), Some(light));
}

#[test]
fn a_run_gives_what_style_calls_give() {
    let compiled = sheets().compile().unwrap();
    let page = page();
    let (mut for_run, mut for_style) = (Workspace::new(), Workspace::for_limits());
    for settings in [true, false].map(|on| Settings::default().with_document_styles(on)) {
        let owned = compiled.run(&page, settings).unwrap();
        let styles = compiled.run_in(&page, settings, &mut for_run).unwrap();
        assert_eq!(owned.numbers(), styles.numbers());
        let mut rows = Vec::new();
        for (row, style) in styles.elements() {
            let called = sheets().style(&page, row, settings).unwrap();
            assert_eq!(all_said(style), all_said(called.style()));
            let kept = sheets().style_in(&page, row, settings, &mut for_style).unwrap();
            assert_eq!(all_said(style), all_said(kept));
            let book = sheets().style_book(&page, row, settings).unwrap();
            let kept = sheets().style_book_in(&page, row, settings, &mut for_style).unwrap();
            assert_eq!(all_said(book.style()), all_said(kept));
            assert_eq!(styles.get(row).unwrap().numbers(), style.numbers());
            rows.push(row);
        }
        assert_eq!(rows, [DIV, FIRST, GONE, IN_GONE, STYLED, FONT]);
        assert!(styles.get(0).is_none() && styles.get(3).is_none() && styles.get(page.row_count()).is_none());
    }
}

#[test]
fn styles_are_equal_by_what_they_say() {
    let page = page();
    let (with, without) = (Settings::default(), Settings::default().with_document_styles(false));
    let compiled = sheets().compile().unwrap();
    let styles = compiled.run(&page, with).unwrap();
    assert_eq!(styles.get(STYLED).unwrap(), sheets().style(&page, STYLED, with).unwrap().style());
    assert_ne!(styles.get(STYLED).unwrap(), sheets().style(&page, STYLED, without).unwrap().style());
    assert_ne!(styles.get(FIRST).unwrap().before(), styles.get(FIRST).unwrap().after());
    // The start counts too: the same declaration further on is another.
    let further = [b" ", AGENT].concat();
    let moved = Sheets { agent: &further, ..sheets() }.style(&page, FIRST, with).unwrap();
    assert_eq!(moved.style().color(), styles.get(FIRST).unwrap().color());
    assert_ne!(moved.style(), styles.get(FIRST).unwrap());
}

#[test]
fn styles_are_shown_by_what_they_say() {
    let page = page();
    let called = sheets().style(&page, FIRST, Settings::default()).unwrap();
    let shown = format!("{called:?}");
    for part in
        ["Style { main: Record { color: Some(Declaration { value: Color { red: 255, green: 0, blue: 0 }", "display: None", "PreWrap", "\"main\"", "Visible"]
    {
        assert!(shown.contains(part), "{shown}");
    }
    let compiled = sheets().compile().unwrap();
    let styles = compiled.run(&page, Settings::default()).unwrap();
    assert_eq!(format!("{styles:?}"), format!("{:?}", styles.elements()));
    assert!(format!("{styles:?}").starts_with("{1: Style {"));
}

#[test]
fn colours_are_written_as_in_a_sheet() {
    assert_eq!(Color { red: 1, green: 0xab, blue: 0 }.to_string(), "#01ab00");
}

#[test]
fn specificities_are_compared_from_the_left() {
    let of = |ids, classes, types| Specificity { ids, classes, types };
    assert!(of(1, 0, 0) > of(0, 9, 9));
    assert!(of(0, 1, 0) > of(0, 0, 9));
    assert!(Origin::Agent < Origin::User && Origin::User < Origin::Author);
}
