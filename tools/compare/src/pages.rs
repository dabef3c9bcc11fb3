//! Pages to ask about: a tree of elements, as rows.
use crate::generate::{self, ATTRIBUTES, CLASSES, IDS, NAMES, PAGE_CLASSES, PAGE_NAMES, VALUES};
use crate::random::Random;
use judge::answers::{DOCUMENT_KIND, ELEMENT_KIND, OTHER_KIND, Page};

/// A node below the document: its parent's row, and, of an element, its name and attributes.
#[derive(Debug, Clone)]
pub struct Node {
    pub parent: usize,
    pub element: Option<(String, Vec<(String, String)>)>,
}

/// The nodes of a page behind row 0.
pub type Tree = Vec<Node>;

fn class(random: &mut Random) -> &'static str {
    if random.percent(85) { random.choose(&CLASSES) } else { random.choose(&PAGE_CLASSES) }
}

fn name(random: &mut Random) -> &'static str {
    if random.percent(90) { random.choose(&NAMES) } else { random.choose(&PAGE_NAMES) }
}

fn attribute(random: &mut Random) -> (String, String) {
    let blanks = [" ", " ", "  ", "\t", "\u{a0}", "\u{85}", "\u{2003}", "\u{200b}", "\u{1f}", ""];
    let (name, value) = match random.below(9) {
        0..=2 => ("class", format!("{}{}{}", class(random), random.choose(&blanks), class(random))),
        3 => ("id", random.choose(&IDS).to_string()),
        4 => (random.choose(&["color", "bgcolor"]), generate::color_attribute(random)),
        5 => ("style", generate::style_attribute(random)),
        _ => (random.choose(&ATTRIBUTES), random.choose(&VALUES).to_string()),
    };
    (name.to_string(), value)
}

// The row and its ancestors that are no comments, the row first.
fn open_rows(tree: &Tree, row: usize) -> Vec<usize> {
    let mut rows = Vec::new();
    let mut at = row;
    while at > 0 {
        rows.push(at);
        at = tree[at - 1].parent;
    }
    rows.push(0);
    rows.retain(|&r| r == 0 || tree[r - 1].element.is_some());
    rows
}

// Which of the open rows a new one stands below: in a deep page the last, in a wide one mostly the first, else any.
#[derive(Clone, Copy)]
enum Shape {
    Deep,
    Wide,
    Any,
}

fn place(random: &mut Random, shape: Shape, open: usize) -> usize {
    match shape {
        Shape::Deep => 0,
        Shape::Wide if random.percent(90) => open - 1,
        _ => random.below(open).min(random.below(open)),
    }
}

// The deepest row that is accepted.
const DEEPEST: usize = 64;

// How a tree is made: where its rows stand and how many there are, how many of a hundred are no elements, and how many attributes one has at most.
struct Outline {
    shape: Shape,
    rows: usize,
    others: usize,
    attributes: usize,
}

fn tree_of(random: &mut Random, outline: Outline, attribute: fn(&mut Random) -> (String, String)) -> Tree {
    let mut tree = Tree::new();
    for row in 1..1 + outline.rows {
        let open = open_rows(&tree, row - 1);
        let parent = open[place(random, outline.shape, open.len())];
        let attributes = (0..random.below(outline.attributes + 1)).map(|_| attribute(random)).collect();
        let element = (!random.percent(outline.others)).then(|| (name(random).to_string(), attributes));
        tree.push(Node { parent, element });
    }
    tree
}

pub fn tree(random: &mut Random) -> Tree {
    let (shape, rows) = match random.below(200) {
        0 => (Shape::Deep, 1 + random.below(DEEPEST)),
        1 | 2 => (Shape::Wide, 1 + random.below(60)),
        _ => (Shape::Any, 1 + random.below(10)),
    };
    tree_of(random, Outline { shape, rows, others: 10, attributes: 3 }, attribute)
}

// An attribute of which more are read.
fn styling_attribute(random: &mut Random) -> (String, String) {
    match random.below(10) {
        0 | 1 => ("style".to_string(), generate::contesting_attribute(random)),
        2 => (random.choose(&["color", "bgcolor"]).to_string(), format!("#{:03x}", random.below(4096))),
        3..=6 => ("class".to_string(), random.choose(&CLASSES).to_string()),
        7 => ("id".to_string(), random.choose(&IDS).to_string()),
        _ => attribute(random),
    }
}

/// A page to be styled: more of its rows are deep, some as deep as they may be, and more of its attributes are read.
pub fn styled_tree(random: &mut Random) -> Tree {
    let (shape, rows, others) = match random.below(40) {
        0 => (Shape::Deep, DEEPEST, 0),
        1 => (Shape::Deep, 1 + random.below(DEEPEST), 10),
        2 | 3 => (Shape::Wide, 1 + random.below(60), 10),
        4 => (Shape::Any, 1 + random.below(60), 10),
        _ => (Shape::Any, 1 + random.below(10), 10),
    };
    let attributes = [3, 6][random.below(2)];
    tree_of(random, Outline { shape, rows, others, attributes }, styling_attribute)
}

/// The rows of a tree.
pub fn page(tree: &Tree) -> Page {
    let mut page = Page { nodes: vec![DOCUMENT_KIND, 0, 0, 0, 0, 0], attributes: vec![], text: vec![] };
    for node in tree {
        let Some((name, attributes)) = &node.element else {
            page.nodes.extend([OTHER_KIND, node.parent as u32, 0, 0, 0, 0]);
            continue;
        };
        let first = page.attributes.len() / judge::answers::ATTRIBUTE_WIDTH;
        let start = page.text.len();
        page.nodes.extend([ELEMENT_KIND, node.parent as u32, start as u32, name.len() as u32, first as u32, attributes.len() as u32]);
        page.text.extend_from_slice(name.as_bytes());
        for (name, value) in attributes {
            let start = page.text.len() as u32;
            let behind = start + name.len() as u32;
            page.attributes.extend([start, name.len() as u32, behind, value.len() as u32]);
            page.text.extend_from_slice(name.as_bytes());
            page.text.extend_from_slice(value.as_bytes());
        }
    }
    page
}

fn without_row(tree: &Tree, row: usize) -> Option<Tree> {
    let mut smaller = tree.clone();
    let above = smaller.remove(row - 1).parent;
    for node in &mut smaller {
        if node.parent == row {
            node.parent = above;
        } else if node.parent > row {
            node.parent -= 1;
        }
    }
    Some(smaller)
}

/// Trees with fewer rows, or with an attribute less.
pub fn smaller(tree: &Tree) -> Vec<Tree> {
    // The first rows alone, half of them, three quarters and so on; then all but one.
    let parts = (1..).map(|i| tree.len() >> i).take_while(|&less| less > 0);
    let mut found: Vec<Tree> = parts.map(|less| tree[..tree.len() - less].to_vec()).collect();
    found.extend((1..=tree.len()).filter_map(|row| without_row(tree, row)));
    for (i, node) in tree.iter().enumerate() {
        for j in 0..node.element.as_ref().map_or(0, |(_, attributes)| attributes.len()) {
            let mut without = tree.clone();
            without[i].element.as_mut().unwrap().1.remove(j);
            found.push(without);
        }
    }
    found
}

/// Trees with another value of one attribute.
pub fn with_values(tree: &Tree, others: fn(&str) -> Vec<String>) -> Vec<Tree> {
    let mut found = vec![];
    for (i, node) in tree.iter().enumerate() {
        for (j, (_, value)) in node.element.iter().flat_map(|(_, attributes)| attributes).enumerate() {
            for other in others(value) {
                let mut with = tree.clone();
                with[i].element.as_mut().unwrap().1[j].1 = other;
                found.push(with);
            }
        }
    }
    found
}

/// A tree as it would stand in a document.
pub fn show(tree: &Tree) -> String {
    let line = |(i, node): (usize, &Node)| match &node.element {
        Some((name, attributes)) => format!("  row {}, below {}: {name:?} {attributes:?}\n", i + 1, node.parent),
        None => format!("  row {}, below {}: no element\n", i + 1, node.parent),
    };
    tree.iter().enumerate().map(line).collect()
}
