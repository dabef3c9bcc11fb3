//! Sheets and pages that are as long and as deep as they may be.
use crate::page_of;
use hicsolmab::Page;
use hicsolmab::layout::{ATTRIBUTE_LIMIT, DEPTH_LIMIT, NODE_LIMIT, SHEET_LIMIT, TEXT_LIMIT};

pub struct Input {
    /// Empty where there is nothing to read of it.
    pub sheet_name: &'static str,
    pub page_name: &'static str,
    pub sheet: Vec<u8>,
    pub page: Page,
    /// The row that is asked for, the deepest.
    pub row: usize,
}

impl Input {
    pub fn name(&self) -> String {
        [self.sheet_name, self.page_name].iter().filter(|name| !name.is_empty()).copied().collect::<Vec<_>>().join("; ")
    }
}

// A sheet: its name, what it begins with, what is repeated as often as there is room for it, what it ends with.
type Sheet = (&'static str, &'static str, &'static str, &'static str);

const NO_SHEET: Sheet = ("", "", "", "");
const SHEETS: [Sheet; 28] = [
    ("open brackets", "p{a:", "(", ""),
    ("closed brackets, one in another", "p{a:", "()", "}"),
    ("open braces of an at-rule", "@x", "{", ""),
    ("one selector of descendant steps", "b", " a", "{color:red}"),
    ("one selector of child steps", "b", ">a", "{color:red}"),
    ("one selector of both steps", "b", ">a a", "{color:red}"),
    (
        "selectors of 64 child steps",
        "",
        "b>a>a>a>a>a>a>a>a>a>a>a>a>a>a>a>a>a>a>a>a>a>a>a>a>a>a>a>a>a>a>a>a>a>a>a>a>a>a>a>a>a>a>a>a>a>a>a>a>a>a>a>a>a>a>a>a>a>a>a>a>a>a>a>a,",
        "a{color:red}",
    ),
    (
        "selectors of 64 descendant steps",
        "",
        "b a a a a a a a a a a a a a a a a a a a a a a a a a a a a a a a a a a a a a a a a a a a a a a a a a a a a a a a a a a a a a a a a,",
        "a{color:red}",
    ),
    ("one selector of stars", "b", "*", "{color:red}"),
    ("one selector of classes", "a", ".k", "{color:red}"),
    ("one selector of ids", "a", "#k", "{color:red}"),
    ("one selector of attributes", "a", "[a=\"b\"]", "{color:red}"),
    ("one selector of nth-child", "a", ":nth-child(2n+1)", "{color:red}"),
    ("nth-child with descendant steps", "b", " a:nth-child(n)", "{color:red}"),
    ("a list of selectors", "b", ",a", "{color:red}"),
    ("pseudo elements", "", "a::before{content:\"x\";color:red}", ""),
    ("declarations", "a{", "color:red;", "color:red}"),
    ("contents of strings", "a{content:", "\"b\"", "}"),
    ("functions", "a{background:", "rgb(1,2,3),", "red}"),
    ("one number", "a{height:0.", "0", "1px;overflow:hidden}"),
    ("escapes", "a{color:", "\\72", "}"),
    ("open comments", "a{a:", "/*a", "}"),
    ("closed comments", "a{color:", "/**/", "red}"),
    ("rules", "", "a{color:red;background-color:blue!important}", ""),
    ("at-rules", "", "@x y;", ""),
    ("one height", "0.", "0", "1px"),
    ("a height without decimals", "", "0", "1px"),
    ("a height with an escaped unit", "1", "\\72", "x"),
];

fn repeated(before: &str, again: &str, behind: &str, limit: usize) -> String {
    let times = (limit - before.len() - behind.len()).checked_div(again.len()).unwrap_or(0);
    format!("{before}{}{behind}", again.repeat(times))
}

// Brackets one in another close in the order of their opening.
fn text_of(sheet: &Sheet, limit: usize) -> String {
    let &(_, before, again, behind) = sheet;
    if again != "()" {
        return repeated(before, again, behind, limit);
    }
    let times = (limit - before.len() - behind.len()) / again.len();
    format!("{before}{}{}{behind}", "(".repeat(times), ")".repeat(times))
}

// ---- pages

fn open(page: &mut Page, name: &str, attributes: &[(&str, &str)]) {
    page.open(name, attributes.iter().copied()).expect("an element within the limits");
}

// Elements one in another, as deep as they may be, each with these attributes.
fn chain(attributes: &[(&str, &str)]) -> Page {
    page_of(|page| (0..DEPTH_LIMIT).for_each(|_| open(page, "a", attributes)))
}

// The same, but only the outermost has an attribute: a style call is there while it is open in all others.
fn chain_below(name: &str, value: &str) -> Page {
    page_of(|page| {
        open(page, "a", &[(name, value)]);
        (1..DEPTH_LIMIT).for_each(|_| open(page, "a", &[]));
    })
}

// As many elements as there may be, the last of them as deep as they may be.
fn full() -> Page {
    page_of(|page| {
        open(page, "a", &[]);
        for _ in 0..NODE_LIMIT - 1 - DEPTH_LIMIT {
            open(page, "a", &[("class", "k")]);
            page.close();
        }
        (1..DEPTH_LIMIT).for_each(|_| open(page, "a", &[("class", "k")]));
    })
}

// One element with one attribute, as long as it may be.
fn attribute(name: &str, value: &str) -> Page {
    page_of(|page| open(page, "a", &[(name, value)]))
}

fn attributes() -> Page {
    page_of(|page| open(page, "a", &vec![("b", ""); ATTRIBUTE_LIMIT]))
}

// What the longest value of an attribute may have, beside its name and those of 64 elements.
const LONGEST: usize = TEXT_LIMIT - DEPTH_LIMIT - "bgcolor".len();

fn pages() -> Vec<(&'static str, Page)> {
    let style = |before: &str, again: &str, behind: &str| attribute("style", &repeated(before, again, behind, LONGEST));
    vec![
        ("64 elements one in another", chain(&[("class", "k"), ("id", "k"), ("a", "b")])),
        ("64 elements one in another, each with an inline style", chain(&[("style", "color:red;content:'x'"), ("color", "red"), ("bgcolor", "00aabb")])),
        (
            "64 elements one in another, an inline style of one number on the outermost",
            chain_below("style", &repeated("height:0.", "0", "1px;overflow:hidden", LONGEST)),
        ),
        ("64 elements one in another, an inline style of open brackets on the outermost", chain_below("style", &repeated("a:", "(", "", LONGEST))),
        ("64 elements one in another, a long colour on the outermost", chain_below("color", &repeated("#", "0", "", LONGEST))),
        ("4,096 rows, the last of depth 64", full()),
        ("an inline style of open brackets", style("a:", "(", "")),
        ("an inline style of declarations", style("", "color:red;", "color:red")),
        ("an inline style of strings", style("content:", "'b'", "")),
        ("an inline style of one number", style("height:0.", "0", "1px;overflow:hidden")),
        ("a long colour", attribute("color", &repeated("#", "0", "", LONGEST))),
        ("a long background colour", attribute("bgcolor", &repeated("rgb(", "1,", "1)", LONGEST))),
        ("many classes", attribute("class", &repeated("", "j ", "k", LONGEST))),
        ("16,384 attributes", attributes()),
    ]
}

fn input(sheet: &Sheet, page: Option<&(&'static str, Page)>) -> Input {
    let (page_name, page) = page.map_or(("", Page::new()), |(name, page)| (name, page.clone()));
    let row = page.row_count() - 1;
    Input { sheet_name: sheet.0, page_name, sheet: text_of(sheet, if sheet.0.is_empty() { 0 } else { SHEET_LIMIT }).into_bytes(), page, row }
}

/// Each sheet alone, each page alone, every sheet over the deep pages, and a few sheets over the others.
pub fn all() -> Vec<Input> {
    const DEEP: usize = 6;
    const OVER_ALL: [&str; 3] = ["pseudo elements", "rules", "contents of strings"];
    let pages = pages();
    let mut all: Vec<Input> = SHEETS.iter().map(|sheet| input(sheet, None)).collect();
    all.extend(pages.iter().map(|page| input(&NO_SHEET, Some(page))));
    for (i, page) in pages.iter().enumerate() {
        let over = SHEETS.iter().filter(|sheet| i < DEEP || OVER_ALL.contains(&sheet.0));
        all.extend(over.map(|sheet| input(sheet, Some(page))));
    }
    all
}
