//! Visibility: which words of it are known, that it is compiled, decided and inherited as the other properties are, and that what it hides is not gone.
use hicsolmab::{Page, Settings, Sheets, Style, Visibility, read_sheet};

const OUTER: usize = 1;
const INNER: usize = 2;

/// A `div` with attributes, and a `p` in it.
fn page(attributes: &[(&str, &str)]) -> Page {
    let mut page = Page::new();
    assert_eq!(page.open("div", attributes.iter().copied()).unwrap(), OUTER);
    assert_eq!(page.open("p", []).unwrap(), INNER);
    page
}

fn author(sheet: &str) -> Sheets<'_> {
    Sheets { author: sheet.as_bytes(), ..Sheets::default() }
}

/// The same question of a run, of the style call, and in book order.
fn of_each<T: PartialEq + std::fmt::Debug>(sheets: Sheets<'_>, page: &Page, row: usize, asked: impl Fn(Style<'_>) -> T) -> (T, T) {
    let settings = Settings::default();
    let compiled = sheets.compile().unwrap();
    let run = asked(compiled.run(page, settings).unwrap().get(row).unwrap());
    assert_eq!(run, asked(sheets.style(page, row, settings).unwrap().style()));
    (run, asked(sheets.style_book(page, row, settings).unwrap().style()))
}

/// What both cascades say.
#[track_caller]
fn of_both<T: PartialEq + std::fmt::Debug>(sheets: Sheets<'_>, page: &Page, row: usize, asked: impl Fn(Style<'_>) -> T) -> T {
    let (crates, book) = of_each(sheets, page, row, asked);
    assert_eq!(crates, book);
    crates
}

#[test]
fn one_word_is_known() {
    let page = page(&[]);
    let visibility = |value: &str| of_both(author(&format!("div{{visibility:{value}}}")), &page, OUTER, |style| style.visibility());
    for hidden in ["hidden", "HIDDEN", "hidd\\65n", "/**/hidden /**/", "hidden !important"] {
        assert_eq!(visibility(hidden), Some(Visibility::Hidden), "{hidden}");
    }
    assert_eq!(visibility("visible"), Some(Visibility::Visible));
    for unknown in ["collapse", "hidden visible", "hidden hidden", "'hidden'", "hidden,", "", "hid\\64 en", "inherit"] {
        assert_eq!(visibility(unknown), None, "{unknown}");
    }
    // An unknown one is read all the same.
    assert_eq!(read_sheet(b"p{visibility:collapse}q{}").unwrap().rules, 2);
}

#[test]
fn it_is_compiled_as_slot_5() {
    assert_eq!(author("p{visibility:hidden}").compile().unwrap().as_bytes(), b"\x01\x03\x00\x01\x02\x01p\x01\x00\x02\x05\x01");
    assert_eq!(author("p{visibility:visible}").compile().unwrap().as_bytes(), b"\x01\x03\x00\x01\x02\x01p\x01\x00\x02\x05\x00");
    assert_eq!(author("p{visibility:collapse}").compile().unwrap().as_bytes(), b"\x00");
}

#[test]
fn what_it_hides_is_not_gone() {
    let page = page(&[]);
    let hides = |sheet: &str| of_both(author(sheet), &page, OUTER, |style| (style.is_hidden(), style.is_invisible()));
    assert_eq!(hides("div{visibility:hidden}"), (false, true));
    assert_eq!(hides("div{display:none}"), (true, false));
    assert_eq!(hides("div{visibility:hidden;display:none}"), (true, true));
    assert_eq!(hides("div{visibility:visible}"), (false, false));
    // Hidden overflow is another property.
    assert_eq!(hides("div{height:0;visibility:hidden}"), (false, true));
}

#[test]
fn the_stronger_declaration_wins() {
    let plain = page(&[]);
    let last = of_both(author("div{visibility:hidden}div{visibility:visible}"), &plain, OUTER, |style| style.main().visibility_declaration());
    assert_eq!(last.map(|d| (d.value, d.important, d.start)), Some((Visibility::Visible, false, 26)));
    let important = of_both(author("div{visibility:hidden!important}div{visibility:visible}"), &plain, OUTER, |style| style.is_invisible());
    assert!(important);
    let styled = page(&[("style", "color:red; visibility:visible"), ("id", "i")]);
    let inline = of_both(author("#i{visibility:hidden}"), &styled, OUTER, |style| style.main().visibility_declaration());
    assert_eq!(inline.map(|d| (d.value, d.inline, d.start)), Some((Visibility::Visible, true, 11)));
}

#[test]
fn it_is_inherited() {
    let plain = page(&[]);
    let child = of_both(author("div{visibility:hidden}"), &plain, INNER, |style| style.main().visibility_declaration());
    assert_eq!(child.map(|d| (d.value, d.start)), Some((Visibility::Hidden, 4)));
    // A visible child in an element that a stronger selector hides: in html2text's cascade what is inherited keeps its weight.
    let named = page(&[("id", "i")]);
    assert_eq!(of_each(author("#i{visibility:hidden}p{visibility:visible}"), &named, INNER, |style| style.is_invisible()), (true, false));
}

#[test]
fn it_makes_a_pseudo_element_present() {
    let page = page(&[]);
    let sheets = author("div{color:red}div::before{visibility:hidden}");
    let before = |style: Style<'_>| style.before().map(|before| (before.is_invisible(), before.color().is_some()));
    // In book order it takes the colour of its element.
    assert_eq!(of_each(sheets, &page, OUTER, before), (Some((true, false)), Some((true, true))));
    assert_eq!(of_each(sheets, &page, INNER, before), (Some((true, false)), None));
    // And the visibility, where nothing is declared for it.
    let sheets = author("div{visibility:hidden}div::after{content:'x'}");
    let after = |style: Style<'_>| style.after().unwrap().visibility();
    assert_eq!(of_each(sheets, &page, OUTER, after), (None, Some(Visibility::Hidden)));
}
