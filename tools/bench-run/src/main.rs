//! The styles of all elements of a page: this engine's `hicsolmab_run` over a compiled sheet, as `bash tools/staticlib.sh engine` builds it, against html2text's `computed_style` of all elements
//! in page order, each with its parent's result. Reading is excluded on both sides: the sheet is compiled before, html2text has its rules and nodes. Both built for release, the same
//! sheets and pages, turn by turn in one run; medians. Prints tables for docs/SPEED.md; tools/bench-run/run.sh builds and runs it.
//!
//! `hicsolmab_run` also checks the page and the compiled bytes, and clears the stores, at each call. The two checks are timed apart, in the same turns, by the functions that make
//! nothing else, and a second figure is without them. What it takes to set the lent stores to zero, as document 01 asks of every call, is timed likewise: no call can take less. Buffers have the least lengths. Document styles are off, but for the page that has style attributes.
use compare::asked::computed_styles;
use compare::engine::{self, Lent, RUN_CALL, Run, RunFunction};
use compare::pages::{self, Node, Tree};
use compare::ran::{self, Asked, run_with};
use judge::answers::{NODE_WIDTH, Page, StyleRow};
use judge::css::questions::{Whole, whole};
use std::hint::black_box;
use std::thread;
use std::time::Instant;

// Turns for each page, and how long the calls of one turn take together at least, so that they can be timed.
const TURNS: usize = 41;
const TURN_NANOSECONDS: f64 = 2e6;
// Where a call takes longer than this there are fewer turns.
const LONG_NANOSECONDS: f64 = 1e8;
const FEW_TURNS: usize = 3;
// The switch of document styles.
const OFF: u32 = 0;
const ON: u32 = 1;
const LEVELS: usize = 60;
const STEPS: usize = 12;
// Of html2text's time on the sheet on which it tries again what cannot succeed.
const BACKTRACKING_NANOSECONDS: f64 = 1e9;
const DEEPEST: usize = 64;
// For html2text, which calls itself for each component.
const STACK: usize = 1 << 30;

// ---- pages

fn add(tree: &mut Tree, parent: usize, name: &str, attributes: &[(&str, &str)]) -> usize {
    let attributes = attributes.iter().map(|(n, v)| (n.to_string(), v.to_string())).collect();
    tree.push(Node { parent, element: Some((name.to_string(), attributes)) });
    tree.len()
}

// Sections with lists of paragraphs with links, at most 8 deep; so many sections.
fn ordinary(sections: usize) -> Tree {
    let mut tree = Tree::new();
    let html = add(&mut tree, 0, "html", &[("lang", "en")]);
    let head = add(&mut tree, html, "head", &[]);
    add(&mut tree, head, "title", &[]);
    let body = add(&mut tree, html, "body", &[("class", "page wide"), ("bgcolor", "#ffffff")]);
    for _ in 0..sections {
        let section = add(&mut tree, body, "div", &[("id", "top"), ("class", "section main")]);
        for _ in 0..3 {
            let list = add(&mut tree, section, "ul", &[("class", "list items"), ("title", "a list")]);
            for i in 0..5 {
                let item = add(&mut tree, list, "li", &[("class", if i % 2 == 0 { "item odd" } else { "item even" })]);
                let paragraph = add(&mut tree, item, "p", &[("class", "text note")]);
                let link = add(&mut tree, paragraph, "a", &[("href", "https://example.org/a/page"), ("class", "link")]);
                if i == 0 {
                    add(&mut tree, link, "em", &[]);
                }
            }
        }
    }
    tree
}

// Boxes in boxes, so many levels. A link lies in each box that has at least twelve above it, so that twelve descendant steps from a link match at its nearest ancestors, and html2text
// tries no step twice.
fn menu(levels: usize) -> Tree {
    let mut tree = Tree::new();
    let mut parent = 0;
    for level in 1..levels {
        let class = format!("item level-{level}");
        parent = add(&mut tree, parent, "div", &[("class", &class)]);
        if level >= STEPS {
            add(&mut tree, parent, "a", &[("href", "#")]);
        }
    }
    tree
}

fn nested(depth: usize) -> Tree {
    (0..depth).map(|parent| Node { parent, element: Some(("a".to_string(), vec![])) }).collect()
}

// Paragraphs below the document, each with a style attribute.
fn inline(count: usize) -> Tree {
    let mut tree = Tree::new();
    for _ in 0..count {
        add(&mut tree, 0, "p", &[("style", "color:#333;background-color:#eee;content:'note'"), ("class", "text")]);
    }
    tree
}

// ---- sheets

const AGENT: &str = "head,script,title,style{display:none}\npre{white-space:pre}\ntextarea{white-space:pre-wrap}\na{color:#0000ee}\nmark{background-color:yellow;color:black}\n";
const USER: &str = ".advert,.banner{display:none!important}\nbody{background-color:white;color:black!important}\np.note::before{content:\"note: \"}\n";
const AUTHOR: &str = "p{color:red}\n.note,.hint{background-color:#ffeecc;color:#333}\ndiv > p.k{display:none}\n#top a{color:rgb(1,2,3)}\nli:nth-child(2n+1){white-space:pre}\n\
    body .section .item a{color:#246}\nul.list > li.item{color:navy;background-color:silver}\n.gone{height:0;overflow:hidden}\na[href]::after{content:\" (link)\"}\n.wide .text em{color:olive!important}\n";

// Two rules with twelve descendant steps to `last`, by names and by classes.
fn twelve_steps(last: &str) -> String {
    format!("{}{last}{{color:red}}\n{}{last}{{background-color:blue}}\n", "div ".repeat(STEPS), ".item ".repeat(STEPS))
}

// ---- measuring

fn nanoseconds(times: usize, mut work: impl FnMut()) -> f64 {
    let start = Instant::now();
    for _ in 0..times {
        work();
    }
    start.elapsed().as_nanos() as f64 / times as f64
}

fn median(mut values: Vec<f64>) -> f64 {
    values.sort_by(f64::total_cmp);
    values[values.len() / 2]
}

// A run of this engine, again and again in the same buffers.
struct This<'a> {
    function: RunFunction,
    run: Run<'a>,
    page: &'a Page,
    switch: u32,
    rows: Vec<u32>,
    texts: Vec<u8>,
    state: Vec<u8>,
    rules: Vec<u32>,
    tokens: Vec<u32>,
    brackets: Vec<u8>,
}

impl This<'_> {
    fn new<'a>(function: RunFunction, compiled: &'a [u8], page: &'a Page, switch: u32) -> This<'a> {
        let run = Run::new(compiled, page);
        let least = run.least();
        This {
            function,
            run,
            page,
            switch,
            rows: vec![0; least.rows],
            texts: vec![0; least.texts],
            state: vec![0; least.state],
            rules: vec![0; least.rules],
            tokens: vec![0; least.tokens],
            brackets: vec![0; least.brackets],
        }
    }

    fn call(&mut self) {
        let This { function, run, switch, rows, texts, state, rules, tokens, brackets, .. } = self;
        let result = black_box(*run).run(*function, *switch, Lent { rows, texts, state, rules, tokens, brackets });
        assert_eq!(black_box(result).refusal, 0, "nothing is refused");
    }

    // Zeros throughout the work stores and the store of texts, which a call leaves where no content is kept, whatever stood there.
    fn clear(&mut self) {
        for store in [&mut self.rules, &mut self.tokens] {
            black_box(store).fill(0);
        }
        for store in [&mut self.brackets, &mut self.texts, &mut self.state] {
            black_box(store).fill(0);
        }
    }

    // The two checks that a call makes.
    fn checks(&self) {
        black_box(engine::check_page(black_box(self.page)));
        black_box(engine::check_bytes(black_box(self.run.compiled)));
    }
}

struct Measured {
    this: f64,
    without_checks: f64,
    clearing: f64,
    html2text: f64,
    ratio: f64,
    ratio_without_checks: f64,
}

// Both take turns; a ratio is the median of the turns' ratios.
fn measure(this: &mut This, html2text: &Whole) -> Measured {
    let document_styles = this.switch != OFF;
    let once = nanoseconds(1, || this.call()).max(nanoseconds(1, || html2text.style(document_styles)));
    let times = ((TURN_NANOSECONDS / once) as usize).max(1);
    let turns = if once > LONG_NANOSECONDS { FEW_TURNS } else { TURNS };
    let (mut whole, mut run, mut clears, mut theirs, mut ratios, mut others) = (vec![], vec![], vec![], vec![], vec![], vec![]);
    for _ in 0..turns {
        let a = nanoseconds(times, || this.call());
        let b = nanoseconds(times, || html2text.style(document_styles));
        let checks = nanoseconds(times, || this.checks());
        whole.push(a);
        run.push(a - checks);
        clears.push(nanoseconds(times, || this.clear()));
        theirs.push(b);
        ratios.push(a / b);
        others.push((a - checks) / b);
    }
    Measured {
        this: median(whole),
        without_checks: median(run),
        clearing: median(clears),
        html2text: median(theirs),
        ratio: median(ratios),
        ratio_without_checks: median(others),
    }
}

// Both sides of a page and its sheets; they give the same styles, or the program stops.
fn compared(function: RunFunction, name: &str, sheets: [&str; 3], tree: &Tree, switch: u32) {
    let page = pages::page(tree);
    let compiled = ran::compile(sheets).expect("sheets that compile");
    let html2text = whole(sheets, &page);
    let run = Run::new(&compiled, &page);
    let asked = Asked { styled: engine::Styled { sheets, page: &page }, compiled: &compiled };
    let rows = computed_styles(sheets, &page, switch != OFF).expect("sheets that read");
    let wrong = ran::wrong(&asked, &run_with(function, &run, switch, run.least(), 0), switch, &rows);
    assert_eq!(wrong, None, "both answer the same for {name}");
    let rows: Vec<StyleRow> = rows.into_iter().map(StyleRow::without_starts).collect();
    assert_eq!(html2text.style_rows(switch != OFF), rows, "what is measured is what was compared");
    let m = measure(&mut This::new(function, &compiled, &page, switch), &html2text);
    let (bytes, rows) = (compiled.len(), page.nodes.len() / NODE_WIDTH);
    let [this, without, clearing, theirs] = [m.this, m.without_checks, m.clearing, m.html2text].map(|t| t / 1e3);
    println!("| {name} | {bytes} | {rows} | {this:.1} | {without:.1} | {clearing:.1} | {theirs:.1} | {:.2} | {:.2} |", m.ratio, m.ratio_without_checks);
}

const HEAD: &str =
    "compiled bytes | node rows | this, µs | without the checks, µs | clearing alone, µs | html2text, µs | ratio | without the checks |\n|---|---|---|---|---|---|---|---|---|";

fn table_of_both(function: RunFunction) {
    println!("| page | {HEAD}");
    let (agent, user, author) = (AGENT.repeat(4), USER.repeat(10), AUTHOR.repeat(10));
    // Of the rules of a deep menu, one in four has another element at its right end than any that is there.
    let deep = format!("{}{}", twelve_steps("a").repeat(15), twelve_steps("b").repeat(5));
    let never = twelve_steps("b").repeat(20);
    compared(function, "deep menu, twelve descendant steps", [AGENT, "", &deep], &menu(LEVELS), OFF);
    compared(function, "deep menu, the last component never matches", [AGENT, "", &never], &menu(LEVELS), OFF);
    compared(function, "typical, 150 rules", [&agent, &user, &author], &ordinary(8), OFF);
    compared(function, "typical, one rule", ["", "", "p{color:red}"], &ordinary(8), OFF);
    compared(function, "typical, no rule", ["", "", ""], &ordinary(8), OFF);
    compared(function, "a style attribute on each of 500 elements", ["", "", ".text{color:red}"], &inline(500), ON);
    backtracking(function);
}

// A sheet on which html2text tries again what cannot succeed: `b a a a a a a a` on nested `a`, as deep as takes it about a second.
fn backtracking(function: RunFunction) {
    let sheets = ["", "", "b a a a a a a a{color:red}"];
    let time = |depth: usize| {
        let html2text = whole(sheets, &pages::page(&nested(depth)));
        nanoseconds(1, || html2text.style(false))
    };
    let depth = (8..DEEPEST).find(|&depth| time(depth) > BACKTRACKING_NANOSECONDS).unwrap_or(DEEPEST);
    compared(function, &format!("`b a a a a a a a` on {depth} nested `a`"), sheets, &nested(depth), OFF);
}

// How both grow: node rows doubled under the same sheet, then compiled bytes doubled over the same page.
fn table_of_growth(function: RunFunction) {
    println!("\n| growth | {HEAD}");
    let author = AUTHOR.repeat(10);
    for sections in [4, 8, 16, 32] {
        compared(function, &format!("typical, {sections} sections"), [AGENT, USER, &author], &ordinary(sections), OFF);
    }
    for times in [5, 10, 20, 40, 80] {
        compared(function, &format!("typical, its rules {times} times"), [AGENT, USER, &AUTHOR.repeat(times)], &ordinary(8), OFF);
    }
    for times in [5, 10, 20, 40] {
        compared(function, &format!("deep menu, {} rules of twelve steps", 2 * times), ["", "", &twelve_steps("a").repeat(times)], &menu(LEVELS), OFF);
    }
}

fn main() {
    let Some(function) = RUN_CALL else {
        println!("the engine does not export the run yet");
        return;
    };
    let tables = move || {
        table_of_both(function);
        table_of_growth(function);
    };
    thread::Builder::new().stack_size(STACK).spawn(tables).expect("a thread").join().expect("the tables");
}
