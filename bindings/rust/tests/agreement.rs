//! A run gives every element the style that a style call gives it, on sheets and pages of all sorts, in a workspace that is used again and again.
use hicsolmab::{Page, Settings, Sheets, Workspace};

const CASES: u64 = 400;

const SELECTORS: [&str; 16] = [
    "p", "*", ".k", "#i", "b", "p.k", "div p", "div > p", "p b", ":nth-child(2n+1)", "p:nth-child(2)", "[title]", "[title='x']", "p::before", ".k::after",
    "div * b",
];
const DECLARATIONS: [&str; 13] = [
    "color: red", "color: #123456 !important", "background-color: blue", "display: none", "white-space: pre", "white-space: pre-wrap !important",
    "content: 'one'", "content: 'two' !important", "height: 0; overflow: hidden", "zz: 1", "visibility: hidden", "visibility: visible !important",
    "visibility: hidden visible",
];
const ATTRIBUTES: [(&str, &str); 8] = [
    ("class", "k"),
    ("class", "a k b"),
    ("id", "i"),
    ("title", "x"),
    ("title", ""),
    ("color", "#00ff00"),
    ("bgcolor", "red"),
    ("style", "content: 'own'; color: blue; visibility: visible"),
];
const NAMES: [&str; 3] = ["p", "b", "div"];

/// Numbers that look random and are the same in every run (xorshift).
struct Random(u64);

impl Random {
    fn below(&mut self, limit: usize) -> usize {
        self.0 ^= self.0 << 13;
        self.0 ^= self.0 >> 7;
        self.0 ^= self.0 << 17;
        (self.0 >> 33) as usize % limit
    }

    fn one_of<T: Copy>(&mut self, list: &[T]) -> T {
        list[self.below(list.len())]
    }

    fn sheet(&mut self) -> String {
        let mut sheet = String::new();
        for _ in 0..self.below(5) {
            let (selector, first, second) = (self.one_of(&SELECTORS), self.one_of(&DECLARATIONS), self.one_of(&DECLARATIONS));
            sheet.extend([selector, " { ", first, "; ", second, " } "]);
        }
        sheet
    }

    fn page(&mut self, page: &mut Page) {
        page.clear();
        for _ in 0..self.below(30) {
            match self.below(6) {
                0 => drop(page.close()),
                1 => drop(page.other().unwrap()),
                _ => {
                    let attributes: Vec<_> = (0..self.below(3)).map(|_| self.one_of(&ATTRIBUTES)).collect();
                    page.open(self.one_of(&NAMES), attributes).unwrap();
                }
            }
        }
    }
}

#[test]
fn run_and_style_call_agree() {
    let mut random = Random(0x9e37_79b9_7f4a_7c15);
    let (mut page, mut for_run, mut for_style) = (Page::new(), Workspace::new(), Workspace::new());
    let (mut coloured, mut invisible) = (0, 0);
    for case in 0..CASES {
        let [agent, user, author] = [random.sheet(), random.sheet(), random.sheet()];
        let sheets = Sheets { agent: agent.as_bytes(), user: user.as_bytes(), author: author.as_bytes() };
        random.page(&mut page);
        let settings = Settings::default().with_document_styles(random.below(4) != 0);
        let compiled = sheets.compile().unwrap();
        let styles = compiled.run_in(&page, settings, &mut for_run).unwrap();
        let elements = (0..page.row_count()).filter(|&row| page.is_element(row));
        assert!(styles.elements().map(|(row, _)| row).eq(elements));
        for (row, style) in styles.elements() {
            let called = sheets.style_in(&page, row, settings, &mut for_style).unwrap();
            assert_eq!(style, called, "case {case}, row {row} of {page:?}, {agent} | {user} | {author}");
            coloured += usize::from(style.color().is_some());
            invisible += usize::from(style.is_invisible());
        }
    }
    assert!(coloured > 1000, "only {coloured} elements have a colour");
    assert!(invisible > 500, "only {invisible} elements are invisible");
}
