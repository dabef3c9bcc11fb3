//! The text of a page, in lines of pieces that look the same throughout.
use crate::document::Document;
use hicsolmab::{Color, Page, Record, Style, Styles, Visibility, WhiteSpace};

/// How text looks. What is invisible keeps its place, and has no colours.
#[derive(Clone, Copy, Default, PartialEq, Eq)]
pub struct Look {
    pub color: Option<Color>,
    pub background: Option<Color>,
    pub invisible: bool,
}

/// Text of one look.
#[derive(PartialEq, Eq)]
pub struct Piece {
    pub text: String,
    pub look: Look,
}

type Line = Vec<Piece>;

// Of these nothing is printed, whatever the sheets say; so does html2text.
const NEVER_PRINTED: [&str; 6] = ["head", "hr", "link", "meta", "script", "style"];
// These stand in the line that is there.
const IN_LINE: [&str; 16] = ["a", "abbr", "b", "big", "cite", "code", "em", "font", "i", "mark", "small", "span", "strong", "sub", "sup", "u"];
// Cells of a row stand in one line.
const CELLS: [&str; 2] = ["td", "th"];
const BETWEEN_CELLS: &str = " | ";

struct Renderer<'a> {
    document: &'a Document,
    styles: &'a Styles<'a>,
    children: Vec<Vec<usize>>,
    lines: Vec<Line>,
    // White space that is printed only where more text follows in the line.
    space: bool,
}

/// The lines of a page by the styles of its elements; what is hidden is left out, and what is invisible is blank.
pub fn render(document: &Document, styles: &Styles) -> Vec<Line> {
    let mut renderer = Renderer { document, styles, children: children(&document.page), lines: vec![vec![]], space: false };
    renderer.put_children(0, None);
    renderer.lines.retain(|line| !line.is_empty());
    renderer.lines
}

fn children(page: &Page) -> Vec<Vec<usize>> {
    let mut children = vec![vec![]; page.row_count()];
    for row in 1..page.row_count() {
        children[page.parent(row).expect("a row with a parent")].push(row);
    }
    children
}

impl Renderer<'_> {
    fn put_children(&mut self, row: usize, style: Option<Style>) {
        for child in self.children[row].clone() {
            match self.styles.get(child) {
                Some(own) => self.put_element(child, own),
                None => self.put_text(child, style),
            }
        }
    }

    fn put_element(&mut self, row: usize, style: Style) {
        let name = self.document.page.name(row).expect("an element has a name").to_string();
        if style.is_hidden() || NEVER_PRINTED.contains(&name.as_str()) {
            return;
        }
        let (in_line, cell) = (IN_LINE.contains(&name.as_str()), CELLS.contains(&name.as_str()));
        if !in_line && !cell {
            self.new_line();
        }
        if cell && self.is_begun() {
            self.space = false;
            self.put(BETWEEN_CELLS, Look::default());
        }
        self.put_content(style.before(), style);
        self.put_children(row, Some(style));
        self.put_content(style.after(), style);
        if !in_line && !cell {
            self.new_line();
        }
    }

    // What a sheet says stands before or behind the text of an element. What it does not say of its look is the element's.
    fn put_content(&mut self, record: Option<Record>, style: Style) {
        let Some(record) = record.filter(|record| !record.is_hidden()) else {
            return;
        };
        if let Some(content) = record.content() {
            let text = String::from_utf8_lossy(content).into_owned();
            let look = Look {
                color: record.color().or(style.color()),
                background: record.background_color().or(style.background_color()),
                invisible: record.visibility().or(style.visibility()) == Some(Visibility::Hidden),
            };
            self.put_words(&text, look);
        }
    }

    fn put_text(&mut self, row: usize, style: Option<Style>) {
        let Some(text) = self.document.texts[row].clone() else {
            return;
        };
        let look = Look {
            color: style.and_then(Style::color),
            background: style.and_then(Style::background_color),
            invisible: style.is_some_and(Style::is_invisible),
        };
        match style.and_then(Style::white_space) {
            Some(WhiteSpace::Pre | WhiteSpace::PreWrap) => self.put_as_it_stands(&text, look),
            _ => self.put_words(&text, look),
        }
    }

    fn put_as_it_stands(&mut self, text: &str, look: Look) {
        if std::mem::take(&mut self.space) && self.is_begun() {
            self.put(" ", look);
        }
        for (i, line) in text.split('\n').enumerate() {
            if i > 0 {
                self.new_line();
            }
            self.put(line, look);
        }
    }

    // Words with one space between them.
    fn put_words(&mut self, text: &str, look: Look) {
        let words: Vec<&str> = text.split_ascii_whitespace().collect();
        self.space |= text.starts_with(|c: char| c.is_ascii_whitespace());
        if words.is_empty() {
            return;
        }
        let before = if self.space && self.is_begun() { " " } else { "" };
        self.put(&format!("{before}{}", words.join(" ")), look);
        self.space = text.ends_with(|c: char| c.is_ascii_whitespace());
    }

    fn put(&mut self, text: &str, look: Look) {
        let (text, look) = if look.invisible { blank(text) } else { (text.to_string(), look) };
        let line = self.lines.last_mut().expect("a line");
        match line.last_mut() {
            _ if text.is_empty() => {}
            Some(piece) if piece.look == look => piece.text.push_str(&text),
            _ => line.push(Piece { text, look }),
        }
    }

    // Whether there is something in the line.
    fn is_begun(&self) -> bool {
        self.lines.last().is_some_and(|line| !line.is_empty())
    }

    fn new_line(&mut self) {
        self.space = false;
        if self.is_begun() {
            self.lines.push(vec![]);
        }
    }
}

// ---- printing

// A blank for each character, in no colours.
fn blank(text: &str) -> (String, Look) {
    (" ".repeat(text.chars().count()), Look { invisible: true, ..Look::default() })
}

/// A piece in the colours of a terminal.
pub fn in_colours(piece: &Piece) -> String {
    let code = |number: u8, color: Option<Color>| color.map_or(String::new(), |c| format!("\x1b[{number};2;{};{};{}m", c.red, c.green, c.blue));
    let codes = format!("{}{}", code(38, piece.look.color), code(48, piece.look.background));
    if codes.is_empty() { piece.text.clone() } else { format!("{codes}{}\x1b[0m", piece.text) }
}

/// A piece with its look in words, for a file that is read and compared: `{#ff0000 on #ffffff}text{}`.
pub fn in_marks(piece: &Piece) -> String {
    let color = piece.look.color.map(|c| c.to_string());
    let background = piece.look.background.map(|c| format!("on {c}"));
    let invisible = piece.look.invisible.then(|| "invisible".to_string());
    let mark: Vec<String> = [color, background, invisible].into_iter().flatten().collect();
    if mark.is_empty() { piece.text.clone() } else { format!("{{{}}}{}{{}}", mark.join(" "), piece.text) }
}
