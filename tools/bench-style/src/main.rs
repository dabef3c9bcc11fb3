//! The style of an element: this engine's `hicsolmab_style`, as `bash tools/staticlib.sh engine` builds it, against html2text's reading of three sheets and its
//! `computed_style` down the path, both built for release, on the same sheets and pages, turn by turn in one run. Then sheets that are hard on this engine,
//! alone. Prints tables for docs/SPEED.md; tools/bench-style/run.sh builds and runs it.
//!
//! `hicsolmab_style` also checks the page and that all is UTF-8, and clears the stores, at each call. html2text is given its nodes, made before.
use compare::asked;
use compare::engine::{BOOK_CALL, STYLE_CALL, Stores, StyleFunction, Styled};
use compare::pages::{self, Node, Tree};
use compare::styled::{say, texts_of_calls};
use judge::answers::{Page, STYLE_ROW_WIDTH};
use judge::css::questions::{Path, path};
use std::hint::black_box;
use std::time::Instant;
use std::{env, thread};

// Turns for each page, and how long the calls of one turn take together at least, so that they can be timed.
const TURNS: usize = 41;
const TURN_NANOSECONDS: f64 = 2e6;
const ALONE_TURNS: usize = 5;
const LONGEST: usize = 32768;
const DEEPEST: usize = 64;
const MOST_ROWS: usize = 4096;
const MOST_ATTRIBUTES: usize = 16384;
const MOST_BYTES: usize = 65536;
// For html2text, which calls itself for each component.
const STACK: usize = 1 << 30;

// ---- pages

fn add(tree: &mut Tree, parent: usize, name: &str, attributes: &[(&str, &str)]) -> usize {
    let attributes = attributes.iter().map(|(n, v)| (n.to_string(), v.to_string())).collect();
    tree.push(Node { parent, element: Some((name.to_string(), attributes)) });
    tree.len()
}

// Sections with lists of paragraphs with links: 484 elements, at most 8 deep.
fn ordinary() -> Tree {
    let mut tree = Tree::new();
    let html = add(&mut tree, 0, "html", &[("lang", "en")]);
    let head = add(&mut tree, html, "head", &[]);
    add(&mut tree, head, "title", &[]);
    let body = add(&mut tree, html, "body", &[("class", "page wide"), ("bgcolor", "#ffffff")]);
    for _ in 0..8 {
        let section = add(&mut tree, body, "div", &[("id", "top"), ("class", "section main")]);
        for _ in 0..3 {
            let list = add(&mut tree, section, "ul", &[("class", "list items"), ("title", "a list")]);
            for i in 0..5 {
                let item = add(&mut tree, list, "li", &[("class", if i % 2 == 0 { "item odd" } else { "item even" })]);
                let paragraph = add(&mut tree, item, "p", &[("class", "text note"), ("style", "color:#333;background-color:#eee")]);
                let link = add(&mut tree, paragraph, "a", &[("href", "https://example.org/a/page"), ("class", "link")]);
                if i == 0 {
                    add(&mut tree, link, "em", &[]);
                }
            }
        }
    }
    tree
}

// Lists in lists, so many levels of elements, the last a link.
fn menu(levels: usize) -> Tree {
    let mut tree = Tree::new();
    let mut parent = add(&mut tree, 0, "nav", &[("class", "menu")]);
    for level in 1..levels - 1 {
        let class = format!("level-{level}");
        parent = add(&mut tree, parent, if level % 2 == 1 { "ul" } else { "li" }, &[("class", &class)]);
    }
    add(&mut tree, parent, "a", &[("href", "#")]);
    tree
}

fn nested(depth: usize) -> Tree {
    (0..depth).map(|parent| Node { parent, element: Some(("a".to_string(), vec![])) }).collect()
}

// As many elements below row 0 as a page may have.
fn wide() -> Tree {
    (1..MOST_ROWS).map(|_| Node { parent: 0, element: Some(("a".to_string(), vec![])) }).collect()
}

fn one_with(attributes: Vec<(String, String)>) -> Tree {
    vec![Node { parent: 0, element: Some(("a".to_string(), attributes)) }]
}

// The deepest row, the last of them.
fn deepest(page: &Page) -> (usize, usize) {
    let depth = |mut row: usize| {
        let mut depth = 0;
        while row > 0 {
            row = page.parent(row);
            depth += 1;
        }
        depth
    };
    let (deep, row) = page.elements().into_iter().map(|row| (depth(row), row)).max().expect("an element");
    (row, deep)
}

// ---- sheets

const AGENT: &str = "head,script,title,style{display:none}\npre{white-space:pre}\ntextarea{white-space:pre-wrap}\na{color:#0000ee}\nmark{background-color:yellow;color:black}\n";
const USER: &str = ".advert,.banner{display:none!important}\nbody{background-color:white;color:black!important}\np.note::before{content:\"note: \"}\n";
const AUTHOR: &str = "p{color:red}\n.note,.hint{background-color:#ffeecc;color:#333}\ndiv > p.k{display:none}\n#top a{color:rgb(1,2,3)}\nli:nth-child(2n+1){white-space:pre}\n\
    body .section .item a{color:#246}\nul.list > li.item{color:navy;background-color:silver}\n.gone{height:0;overflow:hidden}\na[href]::after{content:\" (link)\"}\n.wide .text em{color:olive!important}\n";

fn repeated(rules: &str, length: usize) -> String {
    rules.repeat(length / rules.len())
}

// `before`, as many copies as fit, and `behind`.
fn filled(before: &str, unit: &str, behind: &str, length: usize) -> String {
    format!("{before}{}{behind}", repeated(unit, length - before.len() - behind.len()))
}

// Half a sheet of selectors, and half a sheet of declarations.
fn halves(selector: &str, declaration: &str) -> String {
    let selectors = filled("", &format!("{selector},"), selector, LONGEST / 2);
    format!("{selectors}{}", filled("{", &format!("{declaration};"), "}", LONGEST / 2))
}

fn steps(unit: &str, count: usize) -> String {
    unit.repeat(count)
}

// ---- measuring

fn nanoseconds(times: usize, mut work: impl FnMut()) -> f64 {
    let start = Instant::now();
    for _ in 0..times {
        work();
    }
    start.elapsed().as_nanos() as f64 / times as f64
}

fn median(mut values: Vec<f64>) -> f64 {
    values.sort_by(f64::total_cmp);
    values[values.len() / 2]
}

// A call of this engine, again and again in the same buffers.
struct This<'a> {
    function: StyleFunction,
    styled: Styled<'a>,
    row: usize,
    out: Vec<u32>,
    stores: Stores,
}

impl This<'_> {
    fn new(function: StyleFunction, styled: Styled, row: usize) -> This {
        This { function, styled, row, out: vec![0; STYLE_ROW_WIDTH], stores: Stores::new(styled.bytes(), 0) }
    }

    fn style(&mut self) {
        let result = black_box(self.styled).style(self.function, black_box(self.row), 1, &mut self.out, &mut self.stores);
        assert_eq!(black_box(result).refusal, 0, "nothing is refused");
    }
}

struct Measured {
    this: f64,
    html2text: f64,
    ratio: f64,
}

// Both take turns; the ratio is the median of the turns' ratios.
fn measure(this: &mut This, html2text: &Path, turns: usize) -> Measured {
    let sheets = this.styled.sheets;
    let once = nanoseconds(1, || this.style()).max(nanoseconds(1, || html2text.style(sheets, true)));
    let times = ((TURN_NANOSECONDS / once) as usize).max(1);
    let (mut ours, mut theirs, mut ratios) = (vec![], vec![], vec![]);
    for _ in 0..turns {
        let a = nanoseconds(times, || this.style());
        let b = nanoseconds(times, || html2text.style(black_box(sheets), true));
        ours.push(a);
        theirs.push(b);
        ratios.push(a / b);
    }
    Measured { this: median(ours), html2text: median(theirs), ratio: median(ratios) }
}

fn compared(function: StyleFunction, name: &str, sheets: [&str; 3], tree: &Tree) {
    let page = pages::page(tree);
    let (row, depth) = deepest(&page);
    let styled = Styled { sheets, page: &page };
    let html2text = path(&page, row);
    let rows = asked::computed_styles(sheets, &page, true).expect("sheets that read");
    let expected = page.elements().iter().position(|&element| element == row).map(|element| rows[element].clone()).expect("an element");
    let wrong = say(function, &styled, row, 1, 0).wrong(&expected, &texts_of_calls(&styled, true)[row]);
    assert_eq!(wrong, None, "both answer the same for {name}");
    assert_eq!(html2text.style_row(sheets, true), expected.without_starts(), "what is measured is what was compared");
    let m = measure(&mut This::new(function, styled, row), &html2text, TURNS);
    let bytes: usize = sheets.iter().map(|s| s.len()).sum();
    println!("| {name} | {bytes} | {depth} | {:.1} | {:.1} | {:.2} |", m.this / 1e3, m.html2text / 1e3, m.ratio);
}

fn table_of_both(function: StyleFunction) {
    println!("| page | bytes of sheets | depth | this, µs | html2text, µs | ratio |\n|---|---|---|---|---|---|");
    let (agent, user, author) = (AGENT.repeat(4), USER.repeat(10), AUTHOR.repeat(10));
    compared(function, "typical, 150 rules", [&agent, &user, &author], &ordinary());
    compared(function, "typical, no sheets", ["", "", ""], &ordinary());
    let chain = |names: [&str; 2], between: &str| (0..11).map(|i| names[i % 2]).collect::<Vec<&str>>().join(between);
    let children = format!("{} > a{{color:red}}\n", chain(["li", "ul"], " > ")).repeat(40);
    let descendants = format!(".menu {} a{{color:red}}\n", chain(["ul", "li"], " ")).repeat(40);
    let lists = format!(".menu {} li{{color:red}}\n", chain(["ul", "li"], " ")).repeat(40);
    compared(function, "deep menu, twelve child steps", [AGENT, "", &children], &menu(60));
    compared(function, "deep menu, twelve descendant steps to the link", [AGENT, "", &descendants], &menu(60));
    compared(function, "deep menu, twelve descendant steps to each item", [AGENT, "", &lists], &menu(60));
    let (long, plain) = (repeated(AUTHOR, LONGEST), repeated("p{color:red}\n", LONGEST));
    compared(function, "a sheet of 32 KB", [AGENT, USER, &long], &ordinary());
    compared(function, "a sheet of 32 KB, short rules", [AGENT, USER, &plain], &ordinary());
}

// One rule whose steps end nowhere: html2text tries all ways to lay them down the menu, and is asked only where it ends in time.
fn table_of_steps(function: StyleFunction) {
    println!("\n| deep menu, one rule `.side ul li .. a` that does not match, steps | this, µs | html2text, ms |\n|---|---|---|");
    let page = pages::page(&menu(60));
    let (row, _) = deepest(&page);
    for (steps, both) in [(4, true), (6, true), (8, true), (12, false)] {
        let names = (0..steps - 1).map(|i| ["ul", "li"][i % 2]).collect::<Vec<&str>>().join(" ");
        let sheet = format!(".side {names} a{{color:red}}");
        let sheets = ["", "", &sheet];
        let mut this = This::new(function, Styled { sheets, page: &page }, row);
        let time = median((0..TURNS).map(|_| nanoseconds(8, || this.style())).collect());
        let html2text = path(&page, row);
        let html2text = if both { format!("{:.3}", nanoseconds(1, || html2text.style(sheets, true)) / 1e6) } else { String::new() };
        println!("| {steps} | {:.1} | {html2text} |", time / 1e3);
    }
}

// ---- this engine alone

// The median time of this engine for the deepest row, in nanoseconds; one turn where a call takes long.
fn time_alone(function: StyleFunction, sheet: &str, page: &Page) -> f64 {
    assert!(sheet.len() <= LONGEST, "a sheet may be so long");
    let (row, _) = deepest(page);
    let mut this = This::new(function, Styled { sheets: ["", "", sheet], page }, row);
    let once = nanoseconds(1, || this.style());
    let turns = if once > 1e9 { 1 } else { ALONE_TURNS };
    median((0..turns).map(|_| nanoseconds(1, || this.style())).collect())
}

fn alone(function: StyleFunction, name: &str, sheet: &str, depth: usize) {
    let time = time_alone(function, sheet, &pages::page(&nested(depth)));
    println!("| {name} | {} | {depth} | {:.2} | {:.2} |", sheet.len(), time / 1e6, time / (sheet.len() * depth) as f64);
}

fn hard_sheets() -> Vec<(&'static str, String)> {
    let chain = |steps_of: &str, last: &str| filled("b", steps_of, last, LONGEST);
    let many = |selector: String| repeated(&format!("{selector}{{color:red}}"), LONGEST);
    vec![
        ("`a{}` again and again", repeated("a{}", LONGEST)),
        ("`a{color:red}` again and again", repeated("a{color:red}", LONGEST)),
        ("half `a`, half `color:red`", halves("a", "color:red")),
        ("half `a`, half `color:red!important`", halves("a", "color:red!important")),
        ("half `a`, half `content:''`", halves("a", "content:''")),
        ("half `a`, half `z:`", halves("a", "z:")),
        ("half `*`, half `color:red`", halves("*", "color:red")),
        ("half `a::before`, half `color:red`", halves("a::before", "color:red")),
        ("half `b a`, half `content:''`", halves("b a", "content:''")),
        ("half `a a`, half five kinds of styles", halves("a a", "color:red;background:red;display:none;white-space:pre;content:''")),
        ("one content, many selectors", filled("a", ",a", "{content:'x'}", LONGEST)),
        ("many contents, one selector", filled("a{", "content:'x';", "}", LONGEST)),
        ("a content of 32 KB", filled("a{content:'", "x", "'}", LONGEST)),
        ("`b>a>..>a a`, one selector", chain(">a", " a{color:red}")),
        ("`b a .. a`, one selector", chain(" a", "{color:red}")),
        ("`b>a a>a a>a ..`, one selector", chain(">a a", "{color:red}")),
        ("`b>a>..>a a` of 63 steps, many", many(format!("b{} a", steps(">a", 62)))),
        ("`b>a>..>a a` of 31 steps, many", many(format!("b{} a", steps(">a", 30)))),
        ("`b>a>..>a a` of 8 steps, many", many(format!("b{} a", steps(">a", 7)))),
        ("`b>a a>a a>a ..` of 32 steps, many", many(format!("b{}", steps(">a a", 16)))),
        ("`b a .. a` of 32 steps, many", many(format!("b{}", steps(" a", 32)))),
        ("`b a` again and again", many("b a".to_string())),
        ("`b>a a` again and again", many("b>a a".to_string())),
        ("`* * .. *` by children", filled("*", ">*", "{color:red}", LONGEST)),
        ("`:nth-child(1)` again and again", filled("", ":nth-child(1)", "{color:red}", LONGEST)),
        ("`[a]` again and again", filled("", "[a]", "{color:red}", LONGEST)),
        ("`.k` again and again", filled("", ".k", "{color:red}", LONGEST)),
        ("a sheet that stops at once", "+".repeat(LONGEST)),
    ]
}

fn table_alone(function: StyleFunction) {
    println!("\n| sheet, nested `a` | bytes | depth | ms | ns for a byte and a row of the path |\n|---|---|---|---|---|");
    for (name, sheet) in hard_sheets() {
        for depth in [1, DEEPEST] {
            alone(function, name, &sheet, depth);
        }
    }
}

// Selectors that are tried at each ancestor of each row of the path, so that the time grows with the depth once more; html2text is asked once.
fn table_of_depths(function: StyleFunction) {
    println!("\n| sheet, nested `a` | bytes | depth | this, ms | ns for a byte and a row of the path | html2text, ms |\n|---|---|---|---|---|---|");
    let grouped = |selector: &str| filled(selector, &format!(",{selector}"), "{color:red}", LONGEST);
    for (name, sheet) in
        [("`b a,b a,..`", grouped("b a")), ("`b>a a,b>a a,..`", grouped("b>a a")), ("`b>a>..>a a,..` of 25 steps", grouped(&format!("b{} a", steps(">a", 24))))]
    {
        for depth in [1, 4, 8, 16, 32, DEEPEST] {
            let page = pages::page(&nested(depth));
            let (this, html2text) = (time_alone(function, &sheet, &page), time_of_html2text(&sheet, &page));
            let each = this / (sheet.len() * depth) as f64;
            println!("| {name} | {} | {depth} | {:.2} | {each:.2} | {:.2} |", sheet.len(), this / 1e6, html2text / 1e6);
        }
    }
}

fn time_of_html2text(sheet: &str, page: &Page) -> f64 {
    let html2text = path(page, deepest(page).0);
    nanoseconds(1, || html2text.style(["", "", sheet], true))
}

// Pages on which a test of one component has much to go through, with html2text, asked once.
fn hard_page(function: StyleFunction, name: &str, sheet: &str, tree: &Tree) {
    let page = pages::page(tree);
    let (this, html2text) = (time_alone(function, sheet, &page), time_of_html2text(sheet, &page));
    println!("| {name} | {} | {:.2} | {:.2} |", sheet.len(), this / 1e6, html2text / 1e6);
}

fn table_of_hard_pages(function: StyleFunction) {
    println!("\n| sheet and page | bytes of the sheet | this, ms | html2text, ms |\n|---|---|---|---|");
    let pair = |name: &str, value: String| (name.to_string(), value);
    hard_page(function, "`:nth-child(n)` again and again, last of 4,095 children", &filled("", ":nth-child(n)", "{color:red}", LONGEST), &wide());
    hard_page(function, "`:nth-child(n){color:red}` again and again, last of 4,095 children", &repeated(":nth-child(n){color:red}", LONGEST), &wide());
    let long = one_with(vec![pair("class", filled("", "x ", "k", MOST_BYTES - 10))]);
    hard_page(function, "`.k` again and again, the last of 32,000 classes", &filled("", ".k", "{color:red}", LONGEST), &long);
    let many = one_with(vec![pair("", String::new()); MOST_ATTRIBUTES]);
    hard_page(function, "`[a],` again and again, 16,384 attributes of another name", &filled("[a]", ",[a]", "{color:red}", LONGEST), &many);
    let classes = one_with(vec![pair("class", String::new()); MOST_BYTES / 5 - 1]);
    hard_page(function, "`.k,` again and again, 13,000 empty class attributes", &filled(".k", ",.k", "{color:red}", LONGEST), &classes);
    hard_page(function, "no sheet, 60 KB of `color:red;` in a `style` attribute", "", &one_with(vec![pair("style", repeated("color:red;", 60000))]));
    hard_page(function, "no sheet, 10,000 empty `style` attributes", "", &one_with(vec![pair("style", String::new()); 10000]));
    hard_page(function, "no sheet, 60 KB of `/*a` in a `style` attribute", "", &one_with(vec![pair("style", filled("a:", "/*a", "", 60000))]));
}

fn main() {
    let Some(function) = (if env::args().nth(1).as_deref() == Some("book") { BOOK_CALL } else { STYLE_CALL }) else {
        println!("the engine does not export the call yet");
        return;
    };
    let tables = move || {
        if env::args().nth(1).is_none() {
            table_of_both(function);
            table_of_steps(function);
        }
        table_alone(function);
        table_of_depths(function);
        table_of_hard_pages(function);
    };
    thread::Builder::new().stack_size(STACK).spawn(tables).expect("a thread").join().expect("the tables");
}
