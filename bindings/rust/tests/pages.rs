//! Pages: built, taken from rows, and used again.
use hicsolmab::{Compiled, Page, PageRows, Settings, Sheets};

/// `<p class=note title="">text<b>bold</b></p><!-- comment --><hr>`
fn built() -> Page {
    let mut page = Page::new();
    assert_eq!(page.open("p", [("class", "note"), ("title", "")]).unwrap(), 1);
    assert_eq!(page.other().unwrap(), 2);
    assert_eq!(page.open("b", []).unwrap(), 3);
    assert_eq!(page.other().unwrap(), 4);
    assert_eq!(page.close(), Some(3));
    assert_eq!(page.close(), Some(1));
    assert_eq!(page.close(), None);
    assert_eq!(page.other().unwrap(), 5);
    assert_eq!(page.open("hr", []).unwrap(), 6);
    assert_eq!(page.close(), Some(6));
    page
}

const NODES: [u32; 42] = [
    0, 0, 0, 0, 0, 0, // the document
    1, 0, 0, 1, 0, 2, // p
    2, 1, 0, 0, 0, 0, // its text
    1, 1, 15, 1, 2, 0, // b
    2, 3, 0, 0, 0, 0, // its text
    2, 0, 0, 0, 0, 0, // the comment
    1, 0, 16, 2, 2, 0, // hr
];
const ATTRIBUTES: [u32; 8] = [1, 5, 6, 4, 10, 5, 15, 0];
const TEXT: &[u8] = b"pclassnotetitlebhr";

#[test]
fn rows_follow_from_opening_and_closing() {
    assert_eq!(built().rows(), PageRows { nodes: &NODES, attributes: &ATTRIBUTES, text: TEXT });
    assert_eq!(Page::default(), Page::new());
}

#[test]
fn rows_are_taken_as_they_are() {
    let page = Page::from_rows(NODES.to_vec(), ATTRIBUTES.to_vec(), TEXT.to_vec()).unwrap();
    assert_eq!(page, built());
}

#[test]
fn what_is_left_over_is_dropped() {
    let attributes = [&ATTRIBUTES[..], &[7, 7, 7, 7]].concat();
    let mut page = Page::from_rows(NODES.to_vec(), attributes, [TEXT, b"\xff more"].concat()).unwrap();
    assert_eq!(page, built());
    // Else what is added would not follow on.
    page.open("i", [("a", "b")]).unwrap();
    assert_eq!(page.attributes(7).collect::<Vec<_>>(), [("a", "b")]);
    assert!(hicsolmab::calls::check_page(page.rows()).accepted().is_ok());
    let bare = Page::from_rows(NODES[..6].to_vec(), vec![1; 4], b"x".to_vec()).unwrap();
    assert_eq!(bare, Page::new());
}

#[test]
fn a_page_tells_what_is_in_it() {
    let page = built();
    assert_eq!(page.row_count(), 7);
    let elements: Vec<usize> = (0..9).filter(|&row| page.is_element(row)).collect();
    assert_eq!(elements, [1, 3, 6]);
    let names: Vec<Option<&str>> = (0..8).map(|row| page.name(row)).collect();
    assert_eq!(names, [None, Some("p"), None, Some("b"), None, None, Some("hr"), None]);
    let parents: Vec<Option<usize>> = (0..8).map(|row| page.parent(row)).collect();
    assert_eq!(parents, [None, Some(0), Some(1), Some(1), Some(3), Some(0), Some(0), None]);
    assert_eq!(page.attributes(1).collect::<Vec<_>>(), [("class", "note"), ("title", "")]);
    for row in [0, 2, 3, 8] {
        assert_eq!(page.attributes(row).count(), 0);
    }
}

#[test]
fn a_cleared_page_is_a_new_one() {
    let mut page = built();
    page.open("div", []).unwrap();
    page.clear();
    assert_eq!(page, Page::new());
    assert_eq!(page.open("p", []).unwrap(), 1);
    assert_eq!(page.parent(1), Some(0));
}

#[test]
fn what_is_built_is_accepted() {
    // Pages of all shapes with six nodes below the document: each bit pair opens, closes or adds another node.
    for shape in 0..4_u32.pow(6) {
        let mut page = Page::new();
        for step in 0..6 {
            match shape >> (2 * step) & 3 {
                0 => page.open("p", [("class", "é")]).map(drop).unwrap(),
                1 => page.open("", []).map(drop).unwrap(),
                2 => page.other().map(drop).unwrap(),
                _ => drop(page.close()),
            }
        }
        assert!(hicsolmab::calls::check_page(page.rows()).accepted().is_ok());
    }
}

#[test]
fn compiled_bytes_are_kept() {
    let compiled = Sheets { author: b"p { color: red }", ..Sheets::default() }.compile().unwrap();
    let kept = Compiled::from_bytes(compiled.clone().into_bytes()).unwrap();
    assert_eq!(kept.as_bytes(), compiled.as_bytes());
    let page = built();
    let styles = kept.run(&page, Settings::default()).unwrap();
    assert_eq!(styles.get(1).unwrap().color().unwrap().to_string(), "#ff0000");
    let none = Compiled::default();
    let styles = none.run(&page, Settings::default()).unwrap();
    assert!(styles.elements().all(|(_, style)| style.color().is_none()));
    assert_eq!(Sheets::default().compile().unwrap(), none);
}
