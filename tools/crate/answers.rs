//! What a question is answered with: rules, styles, specificities and style rows as plain data, and how they lie in numbers and bytes.
//! The layouts are those of crates/syntax/specs (RuleLayout, Layout) and of the compiled sheet; nothing here is text of html2text.

pub type Text = Vec<u8>;

#[derive(Debug, Clone, PartialEq, Eq)]
pub enum Component {
    Star,
    Class(Text),
    Element(Text),
    Hash(Text),
    Child,
    Descendant,
    Nth(i32, i32),
    Attribute(Text),
    AttributeEqual(Text, Text),
}

/// Components, rightmost first. Pseudo is 0 for none, 1 for before, 2 for after.
#[derive(Debug, Clone, PartialEq, Eq)]
pub struct Selector {
    pub components: Vec<Component>,
    pub pseudo: u32,
}

/// A declaration. Html2text does not know `visibility`.
#[derive(Debug, Clone, PartialEq, Eq)]
pub enum Decl {
    Color(u32),
    BackgroundColor(u32),
    Height { zero: bool },
    MaxHeight { zero: bool },
    Overflow(u32),
    OverflowY(u32),
    Display { none: bool },
    WhiteSpace(u32),
    Content(Text),
    Unknown(Text),
    Visibility { hidden: bool },
}

/// The number of `overflow: hidden`.
pub const OVERFLOW_HIDDEN: u32 = 1;

#[derive(Debug, Clone, PartialEq, Eq)]
pub struct Declaration {
    pub decl: Decl,
    pub important: bool,
    pub start: usize,
}

#[derive(Debug, Clone, PartialEq, Eq)]
pub struct Rule {
    pub selectors: Vec<Selector>,
    pub declarations: Vec<Declaration>,
    pub start: usize,
}

/// The rules of a sheet, and the first byte not read.
#[derive(Debug, Clone, PartialEq, Eq)]
pub struct Sheet {
    pub rules: Vec<Rule>,
    pub stop: usize,
}

#[derive(Debug, Clone, PartialEq, Eq)]
pub enum Style {
    Colour(u32),
    Background(u32),
    DisplayNone,
    WhiteSpace(u32),
    Content(Text),
    /// Which html2text does not have: 1 where it is hidden.
    Visibility(u32),
}

#[derive(Debug, Clone, PartialEq, Eq)]
pub struct StyleDecl {
    pub style: Style,
    pub important: bool,
    /// The byte where its declaration starts.
    pub start: usize,
}

/// A selector with the styles of its rule, as the compiled sheet has it.
#[derive(Debug, Clone, PartialEq, Eq)]
pub struct Styled {
    pub origin: u32,
    pub selector: Selector,
    pub styles: Vec<StyleDecl>,
}

#[derive(Debug, Clone, Copy, PartialEq, Eq)]
pub struct Specificity {
    pub ids: u32,
    pub classes: u32,
    pub types: u32,
}

// ---- the page

pub const NODE_WIDTH: usize = 6;
pub const ATTRIBUTE_WIDTH: usize = 4;
pub const DOCUMENT_KIND: u32 = 0;
pub const ELEMENT_KIND: u32 = 1;
pub const OTHER_KIND: u32 = 2;

/// Rows of nodes and of attributes, and the text that their names and values lie in.
#[derive(Debug, Clone, PartialEq, Eq)]
pub struct Page {
    pub nodes: Vec<u32>,
    pub attributes: Vec<u32>,
    pub text: Vec<u8>,
}

impl Page {
    pub fn rows(&self) -> usize {
        self.nodes.len() / NODE_WIDTH
    }

    pub fn kind(&self, row: usize) -> u32 {
        self.nodes[row * NODE_WIDTH]
    }

    pub fn parent(&self, row: usize) -> usize {
        self.nodes[row * NODE_WIDTH + 1] as usize
    }

    fn part(&self, start: u32, length: u32) -> &str {
        std::str::from_utf8(&self.text[start as usize..][..length as usize]).expect("a text of a page is UTF-8")
    }

    pub fn name(&self, row: usize) -> &str {
        let node = &self.nodes[row * NODE_WIDTH..][..NODE_WIDTH];
        self.part(node[2], node[3])
    }

    /// Names and values of a row's attributes.
    pub fn attributes_of(&self, row: usize) -> Vec<(&str, &str)> {
        let node = &self.nodes[row * NODE_WIDTH..][..NODE_WIDTH];
        let first = node[4] as usize * ATTRIBUTE_WIDTH;
        let rows = &self.attributes[first..][..node[5] as usize * ATTRIBUTE_WIDTH];
        rows.chunks(ATTRIBUTE_WIDTH).map(|a| (self.part(a[0], a[1]), self.part(a[2], a[3]))).collect()
    }

    pub fn elements(&self) -> Vec<usize> {
        (0..self.rows()).filter(|&row| self.kind(row) == ELEMENT_KIND).collect()
    }
}

// ---- where the declarations of styles start, and those that html2text does not know

impl Decl {
    // Whether it is one to html2text.
    fn is_style(&self) -> bool {
        match self {
            Decl::Color(_) | Decl::BackgroundColor(_) | Decl::WhiteSpace(_) | Decl::Content(_) => true,
            Decl::Display { none } => *none,
            Decl::Height { .. } | Decl::MaxHeight { .. } | Decl::Overflow(_) | Decl::OverflowY(_) | Decl::Unknown(_) | Decl::Visibility { .. } => false,
        }
    }

    fn is_zero_height(&self) -> bool {
        matches!(self, Decl::Height { zero: true } | Decl::MaxHeight { zero: true })
    }

    fn hides_overflow(&self) -> bool {
        matches!(self, Decl::Overflow(OVERFLOW_HIDDEN) | Decl::OverflowY(OVERFLOW_HIDDEN))
    }
}

/// The start of each style that html2text makes of declarations, in the order of `styles_from_properties`: the display that a zero height with hidden overflow makes comes last, and
/// names the first height that is zero. html2text has none of these.
pub fn style_starts(declarations: &[Declaration]) -> Vec<usize> {
    let mut starts: Vec<usize> = declarations.iter().filter(|d| d.decl.is_style()).map(|d| d.start).collect();
    if declarations.iter().any(|d| d.decl.hides_overflow()) {
        starts.extend(declarations.iter().find(|d| d.decl.is_zero_height()).map(|d| d.start));
    }
    starts
}

/// The styles that html2text makes of declarations, with those of visibility where they are declared.
pub fn with_visibility(declarations: &[Declaration], styles: Vec<StyleDecl>) -> Vec<StyleDecl> {
    let mut known = styles.into_iter();
    let mut all = vec![];
    for Declaration { decl, important, start } in declarations {
        match decl {
            Decl::Visibility { hidden } => all.push(StyleDecl { style: Style::Visibility(u32::from(*hidden)), important: *important, start: *start }),
            _ if decl.is_style() => all.extend(known.next()),
            _ => {}
        }
    }
    // The display that a height makes.
    all.extend(known);
    all
}

// ---- rows of numbers, with the texts that they name

/// The numbers of a style's row.
pub const STYLE_WIDTH: usize = 5;

#[derive(Debug, Clone, PartialEq, Eq, Default)]
pub struct Rows {
    pub numbers: Vec<u32>,
    pub texts: Vec<u8>,
}

/// A number with a sign as one without: v as 2v, negative as -2v-1.
pub fn signed_number(v: i32) -> u32 {
    let wide = i64::from(v);
    (if wide < 0 { -2 * wide - 1 } else { 2 * wide }) as u32
}

impl Component {
    pub fn kind(&self) -> u32 {
        match self {
            Component::Star => 0,
            Component::Class(_) => 1,
            Component::Element(_) => 2,
            Component::Hash(_) => 3,
            Component::Child => 4,
            Component::Descendant => 5,
            Component::Nth(..) => 6,
            Component::Attribute(_) => 7,
            Component::AttributeEqual(..) => 8,
        }
    }

    fn texts(&self) -> Vec<&Text> {
        match self {
            Component::Class(t) | Component::Element(t) | Component::Hash(t) | Component::Attribute(t) => vec![t],
            Component::AttributeEqual(name, value) => vec![name, value],
            _ => vec![],
        }
    }
}

impl Rows {
    fn component(&mut self, component: &Component) {
        let start = self.texts.len() as u32;
        let texts = component.texts();
        let length = |i: usize| texts.get(i).map_or(0, |t| t.len() as u32);
        let (first, second) = match component {
            Component::Nth(a, b) => (signed_number(*a), signed_number(*b)),
            _ => (length(0), length(1)),
        };
        self.numbers.extend([component.kind(), start, first, second]);
        texts.iter().for_each(|t| self.texts.extend_from_slice(t));
    }

    fn selector(&mut self, selector: &Selector) {
        self.numbers.extend([selector.components.len() as u32, selector.pseudo]);
        selector.components.iter().rev().for_each(|c| self.component(c));
    }

    fn declaration(&mut self, declaration: &Declaration) {
        let text = match &declaration.decl {
            Decl::Content(t) | Decl::Unknown(t) => Some(t),
            _ => None,
        };
        let start = self.texts.len() as u32;
        let (kind, value) = match &declaration.decl {
            Decl::Color(colour) => (1, *colour),
            Decl::BackgroundColor(colour) => (2, *colour),
            Decl::Height { zero } => (3, u32::from(*zero)),
            Decl::MaxHeight { zero } => (4, u32::from(*zero)),
            Decl::Overflow(word) => (5, *word),
            Decl::OverflowY(word) => (6, *word),
            Decl::Display { none } => (7, u32::from(*none)),
            Decl::WhiteSpace(word) => (8, *word),
            Decl::Content(_) => (9, start),
            Decl::Unknown(_) => (10, start),
            Decl::Visibility { hidden } => (11, u32::from(*hidden)),
        };
        let second = text.map_or(0, |t| t.len() as u32);
        self.numbers.extend([kind, u32::from(declaration.important), declaration.start as u32, value, second]);
        text.iter().for_each(|t| self.texts.extend_from_slice(t));
    }

    fn rule(&mut self, rule: &Rule) {
        self.numbers.extend([rule.start as u32, rule.selectors.len() as u32, rule.declarations.len() as u32]);
        rule.selectors.iter().for_each(|s| self.selector(s));
        rule.declarations.iter().for_each(|d| self.declaration(d));
    }

    fn style(&mut self, decl: &StyleDecl) {
        let (value, second) = match &decl.style {
            Style::Colour(colour) | Style::Background(colour) => (*colour, 0),
            Style::DisplayNone => (0, 0),
            Style::WhiteSpace(word) | Style::Visibility(word) => (*word, 0),
            Style::Content(text) => (self.texts.len() as u32, text.len() as u32),
        };
        self.numbers.extend([decl.style.slot(), u32::from(decl.important), value, second, decl.start as u32]);
        if let Style::Content(text) = &decl.style {
            self.texts.extend_from_slice(text);
        }
    }

    pub fn of_rules(rules: &[Rule]) -> Rows {
        let mut rows = Rows::default();
        rules.iter().for_each(|r| rows.rule(r));
        rows
    }

    pub fn of_styles(styles: &[StyleDecl]) -> Rows {
        let mut rows = Rows::default();
        styles.iter().for_each(|s| rows.style(s));
        rows
    }

    /// The components of a selector, in reading order.
    pub fn of_components(components: &[Component]) -> Rows {
        let mut rows = Rows::default();
        components.iter().rev().for_each(|c| rows.component(c));
        rows
    }
}

impl Style {
    pub fn slot(&self) -> u32 {
        match self {
            Style::Colour(_) => 0,
            Style::Background(_) => 1,
            Style::DisplayNone => 2,
            Style::WhiteSpace(_) => 3,
            Style::Content(_) => 4,
            Style::Visibility(_) => VISIBILITY_SLOT as u32,
        }
    }

    /// Its number in a slot; a content has none.
    pub fn number(&self) -> u32 {
        match self {
            Style::Colour(n) | Style::Background(n) | Style::WhiteSpace(n) | Style::Visibility(n) => *n,
            Style::DisplayNone | Style::Content(_) => 0,
        }
    }
}

// ---- the compiled sheet

fn put_number(out: &mut Vec<u8>, mut n: u32) {
    while n >= 128 {
        out.push((n % 128) as u8 + 128);
        n /= 128;
    }
    out.push(n as u8);
}

fn put_text(out: &mut Vec<u8>, text: &Text) {
    put_number(out, text.len() as u32);
    out.extend_from_slice(text);
}

fn put_component(out: &mut Vec<u8>, component: &Component) {
    put_number(out, component.kind());
    if let Component::Nth(a, b) = component {
        put_number(out, signed_number(*a));
        put_number(out, signed_number(*b));
    }
    component.texts().into_iter().for_each(|t| put_text(out, t));
}

fn put_style(out: &mut Vec<u8>, decl: &StyleDecl) {
    put_number(out, u32::from(decl.important));
    put_number(out, decl.start as u32);
    put_number(out, decl.style.slot());
    match &decl.style {
        Style::Colour(n) | Style::Background(n) | Style::WhiteSpace(n) | Style::Visibility(n) => put_number(out, *n),
        Style::DisplayNone => {}
        Style::Content(text) => put_text(out, text),
    }
}

/// The bytes of a compiled sheet.
pub fn compiled(sheet: &[Styled]) -> Vec<u8> {
    let mut out = Vec::new();
    put_number(&mut out, sheet.len() as u32);
    for styled in sheet {
        put_number(&mut out, styled.origin);
        put_number(&mut out, styled.selector.pseudo);
        put_number(&mut out, styled.selector.components.len() as u32);
        styled.selector.components.iter().for_each(|c| put_component(&mut out, c));
        put_number(&mut out, styled.styles.len() as u32);
        styled.styles.iter().for_each(|s| put_style(&mut out, s));
    }
    out
}

// ---- the style row

pub const SLOTS: usize = 6;
/// The slot that html2text does not have.
pub const VISIBILITY_SLOT: usize = 5;
pub const SLOT_START: usize = 9;
pub const SLOT_WIDTH: usize = 10;
pub const RECORD_WIDTH: usize = 1 + SLOTS * SLOT_WIDTH;
pub const STYLE_ROW_WIDTH: usize = 3 * RECORD_WIDTH;

/// The 183 numbers of a style row, in which a content's start and length are zero, and the contents of main, before and after.
#[derive(Debug, Clone, PartialEq, Eq, Default)]
pub struct StyleRow {
    pub numbers: Vec<u32>,
    pub contents: Vec<Text>,
}

impl StyleRow {
    /// The slots of its three records, one behind the other.
    pub fn slots_mut(&mut self) -> impl Iterator<Item = &mut [u32]> {
        self.numbers.chunks_mut(RECORD_WIDTH).flat_map(|record| record[1..].chunks_mut(SLOT_WIDTH))
    }

    /// The same with all starts zero, which is what html2text says of it.
    pub fn without_starts(mut self) -> StyleRow {
        self.slots_mut().for_each(|slot| slot[SLOT_START] = 0);
        self
    }
}
