//! The questions that both sides are asked, and what counts as the same answer.
use crate::asked;
use crate::engine::{self, Stores};
use crate::generate;
use crate::height::{a_height, ask_height};
use crate::pages::{self, Tree};
use crate::ran::ASK_RUN;
use crate::random::Random;
use crate::styled::{ASK_BOOK, ASK_COMPUTED};
use judge::answers::{Component, Rows, STYLE_WIDTH, Selector};
use judge::css::questions as html2text;

/// Sheets or an attribute value, and a page where the question has one.
#[derive(Clone)]
pub struct Input {
    pub texts: Vec<String>,
    pub tree: Tree,
}

pub enum Answer {
    /// The same, where html2text answers and where it panics.
    Same,
    SamePanic,
    /// The comparison does not speak of this input.
    Outside,
    Different(String),
}

pub struct Question {
    pub name: &'static str,
    /// What is asked of this engine, by the name of its function.
    pub call: &'static str,
    pub generate: fn(&mut Random) -> Input,
    /// None where the engine does not export what is asked yet.
    pub ask: Option<fn(&Input) -> Answer>,
}

// `computed` and `styled` ask the same of each element, the style by html2text's cascade: of short sheets and small pages, from which vectors are chosen, and of
// sheets and pages in which more contends; `book` asks for the style in book order, which is held against src/book.rs. `run` and `styled_run` ask for all elements of
// the same pages in one run over the compiled sheets. `lengths` asks for the length of a height, which is held against src/height.rs.
pub const QUESTIONS: &[Question] = &[
    Question { name: "sheet", call: "hicsolmab_read_sheet", generate: a_sheet, ask: Some(ask_sheet) },
    Question { name: "lengths", call: "hicsolmab_height_length", generate: a_height, ask: Some(ask_height) },
    Question { name: "style", call: "comparison_style_attribute", generate: a_style_attribute, ask: Some(ask_style_attribute) },
    Question { name: "colour", call: "comparison_color_attribute", generate: a_color_attribute, ask: Some(ask_color_attribute) },
    Question { name: "matches", call: "comparison_matches", generate: a_sheet_and_page, ask: Some(ask_matches) },
    Question { name: "compile", call: "hicsolmab_compile", generate: three_sheets, ask: ASK_COMPILE },
    Question { name: "computed", call: "hicsolmab_style", generate: three_sheets_and_page, ask: ASK_COMPUTED },
    Question { name: "styled", call: "hicsolmab_style", generate: styled_page, ask: ASK_COMPUTED },
    Question { name: "book", call: "hicsolmab_style_book", generate: styled_page, ask: ASK_BOOK },
    Question { name: "run", call: "hicsolmab_run", generate: three_sheets_and_page, ask: ASK_RUN },
    Question { name: "styled_run", call: "hicsolmab_run", generate: styled_page, ask: ASK_RUN },
];

// What the stores hold before a call, so that a byte left as it was is seen.
pub const FILLING: u8 = 0xa5;

pub const PANICS: u32 = 4;
#[cfg(compiler)]
const TOO_LONG_COMPILED: u32 = 10;
pub const COMPILED_LIMIT: usize = 65536;

fn text_input(text: String) -> Input {
    Input { texts: vec![text], tree: Tree::new() }
}

fn a_sheet(random: &mut Random) -> Input {
    text_input(generate::sheet(random))
}

fn a_style_attribute(random: &mut Random) -> Input {
    text_input(generate::style_attribute(random))
}

fn a_color_attribute(random: &mut Random) -> Input {
    text_input(generate::color_attribute(random))
}

fn a_sheet_and_page(random: &mut Random) -> Input {
    Input { texts: vec![generate::matching_sheet(random)], tree: pages::tree(random) }
}

fn three_sheets(random: &mut Random) -> Input {
    let one = |random: &mut Random| if random.percent(30) { String::new() } else { generate::sheet(random) };
    Input { texts: vec![one(random), one(random), generate::sheet(random)], tree: Tree::new() }
}

fn three_sheets_and_page(random: &mut Random) -> Input {
    let texts = (0..3).map(|_| generate::styling_sheet(random)).collect();
    Input { texts, tree: pages::tree(random) }
}

fn styled_page(random: &mut Random) -> Input {
    let texts = (0..3).map(|_| generate::page_sheet(random)).collect();
    Input { texts, tree: pages::styled_tree(random) }
}

// ---- comparing

fn same_or<T: PartialEq + std::fmt::Debug>(crate_says: T, this_says: T) -> Answer {
    if crate_says == this_says {
        return Answer::Same;
    }
    Answer::Different(format!("  html2text: {crate_says:?}\n  this:      {this_says:?}"))
}

fn different(what: &str) -> Answer {
    Answer::Different(format!("  {what}"))
}

pub fn is_clear<T: Default + PartialEq>(store: &[T]) -> bool {
    store.iter().all(|n| *n == T::default())
}

pub fn all_clear(stores: &Stores) -> bool {
    is_clear(&stores.rules) && is_clear(&stores.tokens) && is_clear(&stores.brackets) && is_clear(&stores.texts)
}

// ---- where html2text panics: it gives no place, but its readers go from left to right, so the shortest beginning of the sheet that makes it panic ends
// in the number that is too large. A panic at no number is at no place.

// Beyond this length the place is not looked for.
const SEARCHED: usize = 2000;

pub fn place_of_panic(sheet: &str) -> Option<usize> {
    if sheet.len() > SEARCHED {
        return None;
    }
    let ends_in_number = |end: usize| sheet[..end].ends_with(|c: char| c.is_ascii_digit());
    let panics = |end: usize| ends_in_number(end) && html2text::read_sheet(&sheet[..end]).is_none();
    let ends = (1..=sheet.len()).filter(|&end| sheet.is_char_boundary(end));
    let number = ends.into_iter().find(|&end| panics(end));
    Some(number.map_or(usize::MAX, |end| sheet[..end].trim_end_matches(|c: char| c.is_ascii_digit()).len()))
}

// The same refusal, at the same place where that is known.
fn same_panic(this: (u32, usize), sheet: &str, clear: bool) -> Answer {
    let place = place_of_panic(sheet);
    if this.0 == PANICS && clear && place.is_none_or(|p| p == this.1) {
        return Answer::SamePanic;
    }
    Answer::Different(format!("  html2text panics, at {place:?}\n  this:      refusal and place {this:?}, stores clear: {clear}"))
}

// ---- read_sheet: the rule rows, the texts, the count, the stop; where html2text panics, refusal 4. What lies beyond is zero.

fn ask_sheet(input: &Input) -> Answer {
    let sheet = &input.texts[0];
    let mut stores = Stores::new(sheet.len(), FILLING);
    let this = stores.read_sheet(sheet.as_bytes());
    let Some(read) = asked::read_sheet(sheet) else {
        return same_panic((this.refusal, this.place), sheet, all_clear(&stores));
    };
    if this.refusal != 0 {
        return Answer::Different(format!("  html2text: {read:?}\n  this:      {this:?}"));
    }
    let beyond_is_clear = is_clear(&stores.rules[this.numbers..]) && is_clear(&stores.texts[this.bytes..]);
    if !beyond_is_clear || !is_clear(&stores.tokens) || !is_clear(&stores.brackets) {
        return different("this leaves something in the stores beyond its answer");
    }
    let rows = Rows { numbers: stores.rules[..this.numbers].to_vec(), texts: stores.texts[..this.bytes].to_vec() };
    same_or((read.rules.len(), read.stop, Rows::of_rules(&read.rules)), (this.count, this.stop, rows))
}

// ---- style attributes: the style rows and the texts of contents

fn ask_style_attribute(input: &Input) -> Answer {
    let value = &input.texts[0];
    let styles = html2text::style_attribute(value).expect("a style attribute never panics");
    let mut stores = Stores::new(value.len(), 0);
    let this = stores.style_attribute(value.as_bytes());
    let (numbers, beyond) = stores.tokens.split_at(this.count * STYLE_WIDTH);
    if !is_clear(&stores.rules) || !is_clear(beyond) || !is_clear(&stores.brackets) || !is_clear(&stores.texts[this.bytes..]) {
        return different("this leaves something in the stores beyond its answer");
    }
    let rows = Rows { numbers: numbers.to_vec(), texts: stores.texts[..this.bytes].to_vec() };
    same_or((0, Rows::of_styles(&styles)), (this.refusal, rows))
}

// ---- colour attributes

fn ask_color_attribute(input: &Input) -> Answer {
    let value = &input.texts[0];
    let colour = html2text::color_attribute(value).expect("a colour attribute never panics");
    let mut stores = Stores::new(value.len(), 0);
    let this = stores.color_attribute(value.as_bytes());
    if !all_clear(&stores) {
        return different("this leaves something in its work stores");
    }
    same_or((0, colour), (this.refusal, (this.found == 1).then_some(this.colour)))
}

// ---- matching: each selector of a sheet, each element of a page

// Where idx - b passes 32 bits; idx is at most the count of nodes.
pub fn may_overflow(selector: &Selector) -> bool {
    let far = |c: &Component| matches!(c, Component::Nth(_, b) if *b < -i32::MAX + 4096);
    selector.components.iter().any(far)
}

fn ask_matches(input: &Input) -> Answer {
    let page = pages::page(&input.tree);
    let refusal = engine::check_page(&page).refusal;
    if refusal != 0 {
        return different(&format!("the page is refused: {refusal}"));
    }
    // Where reading panics there is nothing to match; the question of sheets asks for it.
    let Some(read) = html2text::read_sheet(&input.texts[0]) else {
        return Answer::Outside;
    };
    if read.rules.iter().flat_map(|r| &r.selectors).any(may_overflow) {
        return Answer::Outside;
    }
    let Some(matched) = html2text::matches(&input.texts[0], &page) else {
        return different("html2text panics while it matches");
    };
    let elements = page.elements();
    for one in &matched {
        let rows = Rows::of_components(&one.selector.components);
        for (&row, &matches) in elements.iter().zip(&one.elements) {
            let this = engine::matches(&rows.numbers, one.selector.components.len(), &rows.texts, &page, row);
            let crate_says = (0, u32::from(matches), one.specificity.ids, one.specificity.classes, one.specificity.types);
            let answer = same_or(crate_says, (this.refusal, this.matches, this.ids, this.classes, this.types));
            if let Answer::Different(how) = answer {
                return Answer::Different(format!("  {:?} at row {row}: refusal, match, ids, classes, types\n{how}", one.selector));
            }
        }
    }
    Answer::Same
}

// ---- compiled bytes of three sheets

#[cfg(not(compiler))]
const ASK_COMPILE: Option<fn(&Input) -> Answer> = None;

#[cfg(compiler)]
const ASK_COMPILE: Option<fn(&Input) -> Answer> = Some(ask_compile);

#[cfg(compiler)]
fn ask_compile(input: &Input) -> Answer {
    let [agent, user, author] = [&input.texts[0], &input.texts[1], &input.texts[2]];
    let mut stores = Stores::new(agent.len() + user.len() + author.len(), FILLING);
    let mut compiled = vec![FILLING; COMPILED_LIMIT];
    let this = stores.compile([agent.as_bytes(), user.as_bytes(), author.as_bytes()], &mut compiled);
    let Some(bytes) = asked::compile([agent, user, author]) else {
        let text = input.texts.iter().position(|t| asked::read_sheet(t).is_none()).expect("a sheet that panics");
        if this.text != text {
            return different(&format!("html2text panics in text {text}, this refuses text {}", this.text));
        }
        return same_panic((this.refusal, this.place), &input.texts[text], all_clear(&stores) && is_clear(&compiled));
    };
    if bytes.len() > COMPILED_LIMIT {
        return same_or(TOO_LONG_COMPILED, this.refusal);
    }
    if this.refusal == 0 && !is_clear(&compiled[this.bytes..]) {
        return different("this leaves something beyond the compiled bytes");
    }
    if let Err(how) = ask_compile_with_little([agent, user, author], &bytes) {
        return different(&how);
    }
    same_or((0, &bytes[..]), (this.refusal, &compiled[..this.bytes]))
}

// Lent exactly the bytes that the sheet takes, it compiles; lent one less, it refuses and leaves zeros.
#[cfg(compiler)]
fn ask_compile_with_little(sheets: [&String; 3], bytes: &[u8]) -> Result<(), String> {
    let mut stores = Stores::new(sheets.iter().map(|s| s.len()).sum(), FILLING);
    let mut compiled = vec![FILLING; bytes.len()];
    let exact = stores.compile(sheets.map(|s| s.as_bytes()), &mut compiled);
    if exact.refusal != 0 || compiled != bytes {
        return Err(format!("lent {} bytes, this answers {exact:?}", bytes.len()));
    }
    compiled.pop();
    compiled.fill(FILLING);
    let less = stores.compile(sheets.map(|s| s.as_bytes()), &mut compiled);
    if less.refusal != TOO_LONG_COMPILED || !is_clear(&compiled) || !all_clear(&stores) {
        return Err(format!("lent a byte less than {}, this answers {less:?} or leaves something", bytes.len()));
    }
    Ok(())
}
