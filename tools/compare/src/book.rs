//! Book order a second time, plainly: all that is declared for a slot is gathered in order and sorted by its key, and the last of the greatest wins. Where nothing is
//! declared, colour, white space and visibility are inherited: by the element from its parent, by its pseudo elements from the element.
//! What is read and which selectors match is html2text's; html2text has no such cascade.
use crate::asked;
use judge::answers::{Page, SLOT_WIDTH, SLOTS, Style, StyleRow, Text};
use judge::css::questions::{self as html2text, Applied};

const AGENT: u32 = 1;
const USER: u32 = 2;
const AUTHOR: u32 = 3;

// The records of a style: the element's own, and those before and behind its content.
const MAIN: usize = 0;
const RECORDS: usize = 3;

// What is said for a slot, with what it weighs.
#[derive(Clone)]
struct Said {
    origin: u32,
    inline: bool,
    ids: u32,
    classes: u32,
    types: u32,
    important: bool,
    style: Style,
    start: usize,
}

// By an author, not important, of specificity 0.
fn lightly(style: Style, start: usize) -> Said {
    Said { origin: AUTHOR, inline: false, ids: 0, classes: 0, types: 0, important: false, style, start }
}

impl Said {
    // Normal agent, user, author, then important author, user, agent.
    fn rank(&self) -> u32 {
        match (self.important, self.origin) {
            (false, origin) => origin - AGENT,
            (true, origin) => AUTHOR + (AUTHOR - origin),
        }
    }

    fn key(&self) -> (u32, bool, u32, u32, u32) {
        (self.rank(), self.inline, self.ids, self.classes, self.types)
    }

    // As they stand in a row; the start and the length of a content are zero.
    fn numbers(&self) -> [u32; SLOT_WIDTH] {
        [1, self.origin, u32::from(self.inline), self.ids, self.classes, self.types, u32::from(self.important), self.style.number(), 0, self.start as u32]
    }

    fn content(&self) -> Text {
        if let Style::Content(text) = &self.style { text.clone() } else { vec![] }
    }
}

#[derive(Clone, Default)]
struct Record {
    present: bool,
    slots: [Option<Said>; SLOTS],
}

type Records = [Record; RECORDS];

// ---- gathering

type Gathered = Vec<(usize, Said)>;

fn from_rules(applied: &[Applied], origin: u32) -> Gathered {
    let mut found = vec![];
    for rule in applied.iter().filter(|r| r.origin == origin) {
        for said in &rule.styles {
            let [ids, classes, types] = [rule.specificity.ids, rule.specificity.classes, rule.specificity.types];
            let said = Said { origin, inline: false, ids, classes, types, important: said.important, style: said.style.clone(), start: said.start };
            found.push((rule.pseudo as usize, said));
        }
    }
    found
}

fn from_colours(attributes: &[(&str, &str)]) -> Gathered {
    let mut found = vec![];
    for &(name, value) in attributes {
        let colour = || html2text::color_attribute(value).expect("a colour attribute never panics");
        let style = match name {
            "color" => colour().map(Style::Colour),
            "bgcolor" => colour().map(Style::Background),
            _ => None,
        };
        found.extend(style.map(|s| (MAIN, lightly(s, 0))));
    }
    found
}

fn from_style_attributes(attributes: &[(&str, &str)]) -> Gathered {
    let mut found = vec![];
    for &(_, value) in attributes.iter().filter(|(name, _)| *name == "style") {
        for said in html2text::style_attribute(value).expect("a style attribute never panics") {
            found.push((MAIN, Said { inline: true, important: said.important, ..lightly(said.style, said.start) }));
        }
    }
    found
}

// ---- choosing

fn declared(applied: &[Applied], attributes: &[(&str, &str)]) -> Records {
    let mut gathered = from_rules(applied, AGENT);
    gathered.extend(from_rules(applied, USER));
    gathered.extend(from_colours(attributes));
    gathered.extend(from_rules(applied, AUTHOR));
    gathered.extend(from_style_attributes(attributes));
    // Equal keys keep their order, so that the later one is written over the earlier.
    gathered.sort_by_key(|(_, said)| said.key());
    let mut records = Records::default();
    records[MAIN].present = true;
    for (i, said) in gathered {
        let slot = said.style.slot() as usize;
        records[i].present = true;
        records[i].slots[slot] = Some(said);
    }
    records
}

// ---- defaulting

fn inherits(said: &Said) -> bool {
    match said.style {
        Style::Colour(_) | Style::WhiteSpace(_) | Style::Visibility(_) => true,
        Style::Background(_) | Style::DisplayNone | Style::Content(_) => false,
    }
}

// What is not declared is that of the record above, with all that it weighs.
fn inherit(record: &mut Record, above: &Record) {
    for (slot, said) in record.slots.iter_mut().zip(&above.slots) {
        if slot.is_none() {
            *slot = said.clone().filter(inherits);
        }
    }
}

fn records_of(parent: &Records, applied: &[Applied], attributes: &[(&str, &str)]) -> Records {
    let [mut main, mut before, mut after] = declared(applied, attributes);
    inherit(&mut main, &parent[MAIN]);
    for pseudo in [&mut before, &mut after].into_iter().filter(|r| r.present) {
        inherit(pseudo, &main);
    }
    [main, before, after]
}

fn style_row(records: &Records) -> StyleRow {
    let mut row = StyleRow::default();
    for record in records {
        row.numbers.push(u32::from(record.present));
        for slot in &record.slots {
            row.numbers.extend(slot.as_ref().map_or([0; SLOT_WIDTH], Said::numbers));
        }
        let content = record.slots.iter().flatten().find(|s| matches!(s.style, Style::Content(_)));
        row.contents.push(content.map_or(vec![], Said::content));
    }
    row
}

/// The style of each element of a page, in row order; None where html2text panics.
pub fn computed_styles(sheets: [&str; 3], page: &Page, document_styles: bool) -> Option<Vec<StyleRow>> {
    let applied = asked::applied_rules(sheets, page)?;
    let mut records = vec![Records::default(); page.rows()];
    for (&row, applied) in page.elements().iter().zip(&applied) {
        let attributes = if document_styles { page.attributes_of(row) } else { vec![] };
        records[row] = records_of(&records[page.parent(row)], applied, &attributes);
    }
    Some(page.elements().into_iter().map(|row| style_row(&records[row])).collect())
}
