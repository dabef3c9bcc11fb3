//! Matching a selector: this engine's `comparison_matches`, as `bash tools/staticlib.sh comparison` builds it, against html2text's `do_matches`, both built for release,
//! on the same pages, turn by turn in one run. Prints tables for docs/SPEED.md; tools/bench-match/run.sh builds and runs it.
//!
//! `comparison_matches` checks the page at each call, and tells the specificity too. So each turn also asks for a selector without components, and what that
//! takes (the check and the call itself) is subtracted; and so is the specificity, which is what a selector that fails at its first test takes more with all
//! its components than with one. Nothing is subtracted from html2text's time. To keep the check small beside the rest, the page is lent up to the row that
//! is asked, and a selector without combinators is asked for many times over in one call: its components are repeated.
use compare::engine;
use compare::pages::{self, Node, Tree};
use judge::answers::{ATTRIBUTE_WIDTH, Component, NODE_WIDTH, Page, Rows};
use judge::css::questions::{Asked, ask};
use std::hint::black_box;
use std::thread;
use std::time::Instant;

// Turns for each selector, and calls in one turn, so that a turn is long enough to be timed.
const TURNS: usize = 201;
const CALLS: usize = 64;
// How often the components of a selector without combinators are repeated.
const REPEATED: usize = 256;
const DEEPEST: usize = 64;
const COMPONENT_WIDTH: usize = 4;
const MOST_COMPONENTS: usize = 32768;
// For html2text, which calls itself for each component.
const STACK: usize = 1 << 30;

// ---- pages

fn add(tree: &mut Tree, parent: usize, name: &str, attributes: &[(&str, &str)]) -> usize {
    let attributes = attributes.iter().map(|(n, v)| (n.to_string(), v.to_string())).collect();
    tree.push(Node { parent, element: Some((name.to_string(), attributes)) });
    tree.len()
}

// Sections with lists of paragraphs with links: 484 elements, at most 8 deep.
fn ordinary() -> Tree {
    let mut tree = Tree::new();
    let html = add(&mut tree, 0, "html", &[("lang", "en")]);
    let head = add(&mut tree, html, "head", &[]);
    add(&mut tree, head, "title", &[]);
    let body = add(&mut tree, html, "body", &[("class", "page wide")]);
    for _ in 0..8 {
        let section = add(&mut tree, body, "div", &[("id", "top"), ("class", "section main")]);
        for _ in 0..3 {
            let list = add(&mut tree, section, "ul", &[("class", "list items"), ("title", "a list")]);
            for i in 0..5 {
                let item = add(&mut tree, list, "li", &[("class", if i % 2 == 0 { "item odd" } else { "item even" })]);
                let paragraph = add(&mut tree, item, "p", &[("class", "text note"), ("title", "a note")]);
                let link = add(&mut tree, paragraph, "a", &[("href", "https://example.org/a/page"), ("class", "link")]);
                if i == 0 {
                    add(&mut tree, link, "em", &[]);
                }
            }
        }
    }
    tree
}

fn nested(depth: usize) -> Tree {
    (0..depth).map(|parent| Node { parent, element: Some(("a".to_string(), vec![])) }).collect()
}

// The rows of a page up to a row. Attributes and bytes that are left over are not read.
fn up_to(page: &Page, row: usize) -> Page {
    let nodes = page.nodes[..(row + 1) * NODE_WIDTH].to_vec();
    let attributes = page.attributes_of(row).len() + nodes[row * NODE_WIDTH + 4] as usize;
    Page { nodes, attributes: page.attributes[..attributes * ATTRIBUTE_WIDTH].to_vec(), text: page.text.clone() }
}

// The first row of a name, behind so many others of it.
fn row_of(page: &Page, name: &str, others: usize) -> usize {
    page.elements().into_iter().filter(|&row| page.name(row) == name).nth(others).expect("an element of that name")
}

// ---- measuring

fn nanoseconds(times: usize, mut work: impl FnMut()) -> f64 {
    let start = Instant::now();
    for _ in 0..times {
        work();
    }
    start.elapsed().as_nanos() as f64 / times as f64
}

fn median(mut values: Vec<f64>) -> f64 {
    values.sort_by(f64::total_cmp);
    values[values.len() / 2]
}

// A selector for this engine, and one of as many components that fails at its first test.
struct Selectors {
    rows: Rows,
    failing: Rows,
    count: usize,
}

fn selectors(components: &[Component]) -> Selectors {
    let mut failing = components.to_vec();
    failing[0] = Component::Element(b"no-such-element".to_vec());
    Selectors { rows: Rows::of_components(components), failing: Rows::of_components(&failing), count: components.len() }
}

// One call of this engine, without the check and the specificity.
fn this_once(selectors: &Selectors, page: &Page, row: usize, calls: usize) -> f64 {
    let call = |rows: &Rows, from: usize, count: usize| {
        let numbers = &rows.numbers[from * COMPONENT_WIDTH..];
        nanoseconds(calls, || {
            black_box(engine::matches(black_box(numbers), count, &rows.texts, black_box(page), row));
        })
    };
    let Selectors { rows, failing, count } = selectors;
    let specificity = call(failing, 0, *count) - call(failing, count - 1, 1);
    call(rows, 0, *count) - call(rows, 0, 0) - specificity
}

fn html2text_once(asked: &Asked, row: usize, calls: usize) -> f64 {
    nanoseconds(calls, || {
        black_box(asked.matches(black_box(row)));
    })
}

struct Measured {
    this: f64,
    html2text: f64,
}

// Both take turns.
fn measure(sheet: &str, times: usize, whole: &Page, row: usize, turns: usize) -> Measured {
    let asked = ask(sheet, times, whole);
    let components = asked.components();
    let selectors = selectors(&components);
    let page = up_to(whole, row);
    let answer = engine::matches(&selectors.rows.numbers, components.len(), &selectors.rows.texts, &page, row);
    assert_eq!((answer.refusal, answer.matches == 1), (0, asked.matches(row)), "both answer the same for {sheet}");
    let (mut this, mut html2text) = (vec![], vec![]);
    for _ in 0..turns {
        this.push(this_once(&selectors, &page, row, CALLS) / times as f64);
        html2text.push(html2text_once(&asked, row, CALLS) / times as f64);
    }
    Measured { this: median(this), html2text: median(html2text) }
}

fn line(name: &str, selector: &str, m: &Measured) {
    println!("| {name} | `{selector}` | {:.1} | {:.1} | {:.2} |", m.this, m.html2text, m.this / m.html2text);
}

fn table_of_selectors() {
    let page = pages::page(&ordinary());
    println!("| selector | | this, ns | html2text, ns | ratio |\n|---|---|---|---|---|");
    for (name, selector, on) in [
        ("element", "p", "p"),
        ("class", ".note", "p"),
        ("identifier", "#top", "div"),
        ("attribute", "[title]", "p"),
        ("attribute and value", "[title=\"a note\"]", "p"),
        ("nth-child", ":nth-child(2n+1)", "li"),
    ] {
        let m = measure(&format!("{selector}{{}}"), REPEATED, &page, row_of(&page, on, 4), TURNS);
        line(name, selector, &m);
    }
    for (name, selector) in [
        ("child", "p > a"),
        ("children", "body > div > ul > li > p > a"),
        ("child that fails", "div > p > a"),
        ("descendant", "div a"),
        ("descendants", "body .section .item a"),
        ("descendant that fails", "table a"),
        ("descendants that fail", "table .section .item a"),
    ] {
        let m = measure(&format!("{selector}{{}}"), 1, &page, row_of(&page, "a", 0), 5 * TURNS);
        line(name, selector, &m);
    }
}

// `b a .. a` on nested `a`: the steps end nowhere. html2text is asked only where it ends in time.
fn table_of_steps() {
    println!("\n| `b a .. a` at depth {DEEPEST}, steps | this, ns | html2text, s |\n|---|---|---|");
    let page = pages::page(&nested(DEEPEST));
    for (steps, both) in [(7, true), (20, false), (1000, false)] {
        let asked = ask(&format!("b{}{{}}", " a".repeat(steps)), 1, &page);
        let selectors = selectors(&asked.components());
        let this = median((0..TURNS).map(|_| this_once(&selectors, &page, DEEPEST, CALLS)).collect());
        let html2text = if both { format!("{:.1}", html2text_once(&asked, DEEPEST, 1) / 1e9) } else { String::new() };
        println!("| {steps} | {this:.0} | {html2text} |");
    }
}

// As many components as are accepted, all of which the row passes.
fn most_components() {
    let page = pages::page(&ordinary());
    let m = measure("[title]{}", MOST_COMPONENTS, &page, row_of(&page, "p", 4), 9);
    println!("\na selector of {MOST_COMPONENTS} components: {:.1} ns a component (html2text: {:.1} ns)", m.this, m.html2text);
}

fn main() {
    let tables = || {
        table_of_selectors();
        table_of_steps();
        most_components();
    };
    thread::Builder::new().stack_size(STACK).spawn(tables).expect("a thread").join().expect("the tables");
}
