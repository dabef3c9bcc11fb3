//! What an element inherits in the order of CSS Cascading: colour, white space and visibility, with their whole declarations, and only where nothing is declared.
use hicsolmab::{Color, Declaration, Origin, Page, Settings, Sheets, Specificity, StyledElement, Visibility, WhiteSpace};

const RED: Color = Color { red: 255, green: 0, blue: 0 };
const BLUE: Color = Color { red: 0, green: 0, blue: 255 };
const BY_TYPE: Specificity = Specificity { ids: 0, classes: 0, types: 1 };
const BY_ID: Specificity = Specificity { ids: 1, classes: 0, types: 0 };

const BODY: usize = 1;
const LINK: usize = 2;
const IN_LINK: usize = 3;
const BESIDE: usize = 4;

/// A body with a link, in which an element stands, and a paragraph beside the link.
fn page(attributes: &[(&str, &str)]) -> Page {
    let mut page = Page::new();
    assert_eq!(page.open("body", attributes.iter().copied()).unwrap(), BODY);
    assert_eq!(page.open("a", []).unwrap(), LINK);
    assert_eq!(page.open("i", []).unwrap(), IN_LINK);
    page.close();
    page.close();
    assert_eq!(page.open("p", []).unwrap(), BESIDE);
    page
}

fn book(sheets: Sheets<'_>, page: &Page, row: usize) -> StyledElement {
    sheets.style_book(page, row, Settings::default()).unwrap()
}

fn author(sheet: &str) -> Sheets<'_> {
    Sheets { author: sheet.as_bytes(), ..Sheets::default() }
}

#[test]
fn own_link_colours_beat_the_bodys() {
    let sheets = Sheets { agent: b"a{color:blue}", author: b"#b{color:red!important}", ..Sheets::default() };
    let page = page(&[("id", "b")]);
    let link = Declaration { value: BLUE, origin: Origin::Agent, inline: false, specificity: BY_TYPE, important: false, start: 2 };
    let body = Declaration { value: RED, origin: Origin::Author, inline: false, specificity: BY_ID, important: true, start: 3 };
    let color = |row| book(sheets, &page, row).style().main().color_declaration();
    assert_eq!([BODY, LINK, IN_LINK, BESIDE].map(color), [body, link, link, body].map(Some));
    // In html2text's cascade the body's stays.
    assert_eq!(sheets.style(&page, LINK, Settings::default()).unwrap().style().main().color_declaration(), Some(body));
}

#[test]
fn colour_white_space_and_visibility_inherit_and_nothing_else() {
    let sheets = author("body{color:red;background:blue;display:none;white-space:pre;content:'x';visibility:hidden}");
    let page = page(&[]);
    let (parent, child) = (book(sheets, &page, BODY), book(sheets, &page, IN_LINK));
    let (parent, child) = (parent.style().main(), child.style().main());
    assert_eq!(child.color_declaration(), parent.color_declaration());
    assert_eq!(child.white_space_declaration(), parent.white_space_declaration());
    assert_eq!(child.white_space_declaration().map(|d| (d.value, d.start)), Some((WhiteSpace::Pre, 44)));
    assert_eq!(child.visibility_declaration(), parent.visibility_declaration());
    assert_eq!(child.visibility_declaration().map(|d| (d.value, d.start)), Some((Visibility::Hidden, 72)));
    assert_eq!((child.background_color_declaration(), child.display_declaration(), child.content_declaration()), (None, None, None));
    assert!(parent.display_declaration().is_some() && !book(sheets, &page, IN_LINK).style().is_hidden());
}

#[test]
fn from_an_attribute() {
    let page = page(&[("style", "color:red!important")]);
    let inline = Declaration { value: RED, origin: Origin::Author, inline: true, specificity: Specificity::default(), important: true, start: 0 };
    assert_eq!(book(Sheets::default(), &page, IN_LINK).style().main().color_declaration(), Some(inline));
    assert_eq!(book(author("*{color:blue}"), &page, IN_LINK).style().main().color_declaration().map(|d| d.value), Some(BLUE));
}

#[test]
fn pseudo_elements_inherit_from_their_element() {
    let sheets = author("body{color:red}body::before{color:blue}a::after{content:'x'}");
    let page = page(&[]);
    let [link, inner] = [LINK, IN_LINK].map(|row| book(sheets, &page, row));
    let after = link.style().after().unwrap();
    assert_eq!(after.color_declaration(), link.style().main().color_declaration());
    assert_eq!((after.color_declaration().map(|d| d.value), after.content()), (Some(RED), Some(&b"x"[..])));
    // Those of an ancestor are not there.
    assert!(link.style().before().is_none() && inner.style().before().is_none() && inner.style().after().is_none());
}
