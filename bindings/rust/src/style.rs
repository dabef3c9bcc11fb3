use std::borrow::Cow;
use std::fmt;
use std::iter::{Enumerate, FusedIterator};
use std::slice::ChunksExact;

use crate::layout::{
    AFTER, AGENT_ORIGIN, BACKGROUND_SLOT, BEFORE, COLOUR_SLOT, CONTENT_SLOT, DISPLAY_SLOT, MAIN, RECORD_WIDTH, SLOT_CLASS, SLOT_FILLED, SLOT_ID,
    SLOT_IMPORTANT, SLOT_INLINE, SLOT_NUMBER, SLOT_ORIGIN, SLOT_SECOND, SLOT_START, SLOT_TYPE, SLOT_WIDTH, STYLE_ROW_WIDTH, USER_ORIGIN, VISIBILITY_HIDDEN,
    VISIBILITY_SLOT, WHITE_SPACE_PRE, WHITE_SPACE_PRE_WRAP, WHITE_SPACE_SLOT, record_place, slot_place,
};

/// A colour.
#[derive(Debug, Clone, Copy, PartialEq, Eq, Hash)]
pub struct Color {
    /// Its red.
    pub red: u8,
    /// Its green.
    pub green: u8,
    /// Its blue.
    pub blue: u8,
}

impl Color {
    /// The colour of a number, red × 65536 + green × 256 + blue.
    const fn from_number(number: u32) -> Self {
        let [_, red, green, blue] = number.to_be_bytes();
        Self { red, green, blue }
    }
}

impl fmt::Display for Color {
    /// As a stylesheet writes it: `#ff0000`.
    fn fmt(&self, f: &mut fmt::Formatter<'_>) -> fmt::Result {
        write!(f, "#{:02x}{:02x}{:02x}", self.red, self.green, self.blue)
    }
}

/// What `display` says. The engine knows one value of it.
#[derive(Debug, Clone, Copy, PartialEq, Eq, Hash)]
#[non_exhaustive]
pub enum Display {
    /// `none`: nothing is displayed.
    None,
}

/// What `white-space` says.
#[derive(Debug, Clone, Copy, PartialEq, Eq, Hash)]
#[non_exhaustive]
pub enum WhiteSpace {
    /// `normal`.
    Normal,
    /// `pre`.
    Pre,
    /// `pre-wrap`.
    PreWrap,
}

/// What `visibility` says. What is hidden by it is not seen and keeps its place, unlike what is not displayed.
#[derive(Debug, Clone, Copy, PartialEq, Eq, Hash)]
#[non_exhaustive]
pub enum Visibility {
    /// `visible`.
    Visible,
    /// `hidden`.
    Hidden,
}

/// Whose a declaration is.
#[derive(Debug, Clone, Copy, PartialEq, Eq, PartialOrd, Ord, Hash)]
pub enum Origin {
    /// The viewer's maker's.
    Agent,
    /// The viewer's user's.
    User,
    /// The page's author's, in its sheet or in an attribute.
    Author,
}

/// How much a rule's selector names. Compared as CSS compares them: ids first, then classes, then types.
#[derive(Debug, Clone, Copy, Default, PartialEq, Eq, PartialOrd, Ord, Hash)]
pub struct Specificity {
    /// Ids.
    pub ids: u32,
    /// Classes, attributes and `:nth-child()`.
    pub classes: u32,
    /// Element names.
    pub types: u32,
}

/// The declaration that won: its value, and where it is from.
#[derive(Debug, Clone, Copy, PartialEq, Eq, Hash)]
pub struct Declaration<T> {
    /// The value.
    pub value: T,
    /// Whose it is.
    pub origin: Origin,
    /// Whether it stands in a `style`, `color` or `bgcolor` attribute; in book order, in a `style` attribute.
    pub inline: bool,
    /// The specificity of its rule's selector; zeros where it is from an attribute.
    pub specificity: Specificity,
    /// Whether it counts as important. In html2text's cascade no attribute does.
    pub important: bool,
    /// The byte where it starts, which is the first of its name: in the sheet of its origin where a rule has it, in the attribute's value where a `style` attribute
    /// has it; 0 where it is from `color` or `bgcolor`. Of a `display` that a zero height with hidden overflow makes, it is that of the first height that is zero.
    /// A child that inherits a value has its whole declaration: an inline start may then count in an attribute of an ancestor.
    pub start: usize,
}

impl<T> Declaration<T> {
    fn map<U>(self, value_of: impl FnOnce(T) -> U) -> Declaration<U> {
        let Self { value, origin, inline, specificity, important, start } = self;
        Declaration { value: value_of(value), origin, inline, specificity, important, start }
    }
}

/// The bytes that contents lie in: those of the compiled sheet, followed by those of the texts. (A style call has no compiled sheet.)
#[derive(Debug, Clone, Copy)]
struct Contents<'a> {
    compiled: &'a [u8],
    texts: &'a [u8],
}

impl<'a> Contents<'a> {
    /// A text by its start and its length. It lies within the one or the other, as the calls promise.
    fn get(self, start: usize, length: usize) -> &'a [u8] {
        match start.checked_sub(self.compiled.len()) {
            None => &self.compiled[start..start + length],
            Some(start) => &self.texts[start..start + length],
        }
    }
}

/// The two numbers of a value.
type Value = (u32, u32);

/// What is declared for an element, or for its `::before` or `::after`.
///
/// Each property has two getters: one for the value, and one for the whole [`Declaration`] that it is from. Two records are equal where all of these are, contents
/// by their bytes.
#[derive(Clone, Copy)]
pub struct Record<'a> {
    numbers: &'a [u32],
    contents: Contents<'a>,
}

impl<'a> Record<'a> {
    /// Its `color`.
    #[must_use]
    pub fn color(self) -> Option<Color> {
        self.color_declaration().map(|declaration| declaration.value)
    }

    /// Its `background-color`.
    #[must_use]
    pub fn background_color(self) -> Option<Color> {
        self.background_color_declaration().map(|declaration| declaration.value)
    }

    /// Its `display`.
    #[must_use]
    pub fn display(self) -> Option<Display> {
        self.display_declaration().map(|declaration| declaration.value)
    }

    /// Whether its `display` is `none`.
    #[must_use]
    pub fn is_hidden(self) -> bool {
        self.display() == Some(Display::None)
    }

    /// Its `white-space`.
    #[must_use]
    pub fn white_space(self) -> Option<WhiteSpace> {
        self.white_space_declaration().map(|declaration| declaration.value)
    }

    /// The bytes of its `content`. They are UTF-8 where sheets and page are texts, which the engine asks of both.
    #[must_use]
    pub fn content(self) -> Option<&'a [u8]> {
        self.content_declaration().map(|declaration| declaration.value)
    }

    /// Its `visibility`.
    #[must_use]
    pub fn visibility(self) -> Option<Visibility> {
        self.visibility_declaration().map(|declaration| declaration.value)
    }

    /// Whether its `visibility` is `hidden`: it is not seen, and keeps its place. What is not displayed, [`is_hidden`](Self::is_hidden) says.
    #[must_use]
    pub fn is_invisible(self) -> bool {
        self.visibility() == Some(Visibility::Hidden)
    }

    /// The declaration of its `color`.
    #[must_use]
    pub fn color_declaration(self) -> Option<Declaration<Color>> {
        Some(self.slot(COLOUR_SLOT)?.map(|(number, _)| Color::from_number(number)))
    }

    /// The declaration of its `background-color`.
    #[must_use]
    pub fn background_color_declaration(self) -> Option<Declaration<Color>> {
        Some(self.slot(BACKGROUND_SLOT)?.map(|(number, _)| Color::from_number(number)))
    }

    /// The declaration of its `display`.
    #[must_use]
    pub fn display_declaration(self) -> Option<Declaration<Display>> {
        Some(self.slot(DISPLAY_SLOT)?.map(|_| Display::None))
    }

    /// The declaration of its `white-space`.
    #[must_use]
    pub fn white_space_declaration(self) -> Option<Declaration<WhiteSpace>> {
        Some(self.slot(WHITE_SPACE_SLOT)?.map(|(number, _)| match number {
            WHITE_SPACE_PRE => WhiteSpace::Pre,
            WHITE_SPACE_PRE_WRAP => WhiteSpace::PreWrap,
            _ => WhiteSpace::Normal,
        }))
    }

    /// The declaration of its `content`.
    #[must_use]
    pub fn content_declaration(self) -> Option<Declaration<&'a [u8]>> {
        let contents = self.contents;
        Some(self.slot(CONTENT_SLOT)?.map(|(start, length)| contents.get(start as usize, length as usize)))
    }

    /// The declaration of its `visibility`.
    #[must_use]
    pub fn visibility_declaration(self) -> Option<Declaration<Visibility>> {
        Some(self.slot(VISIBILITY_SLOT)?.map(|(number, _)| match number {
            VISIBILITY_HIDDEN => Visibility::Hidden,
            _ => Visibility::Visible,
        }))
    }

    /// A slot that is filled.
    fn slot(self, slot: usize) -> Option<Declaration<Value>> {
        let numbers = &self.numbers[slot_place(slot)..][..SLOT_WIDTH];
        (numbers[SLOT_FILLED] != 0).then(|| Declaration {
            value: (numbers[SLOT_NUMBER], numbers[SLOT_SECOND]),
            origin: match numbers[SLOT_ORIGIN] {
                AGENT_ORIGIN => Origin::Agent,
                USER_ORIGIN => Origin::User,
                _ => Origin::Author,
            },
            inline: numbers[SLOT_INLINE] != 0,
            specificity: Specificity { ids: numbers[SLOT_ID], classes: numbers[SLOT_CLASS], types: numbers[SLOT_TYPE] },
            important: numbers[SLOT_IMPORTANT] != 0,
            start: numbers[SLOT_START] as usize,
        })
    }
}

impl PartialEq for Record<'_> {
    fn eq(&self, other: &Self) -> bool {
        self.color_declaration() == other.color_declaration()
            && self.background_color_declaration() == other.background_color_declaration()
            && self.display_declaration() == other.display_declaration()
            && self.white_space_declaration() == other.white_space_declaration()
            && self.content_declaration() == other.content_declaration()
            && self.visibility_declaration() == other.visibility_declaration()
    }
}

impl Eq for Record<'_> {}

impl fmt::Debug for Record<'_> {
    /// What is declared, in place of the numbers.
    fn fmt(&self, f: &mut fmt::Formatter<'_>) -> fmt::Result {
        let content = self.content_declaration().map(|declaration| declaration.map(String::from_utf8_lossy));
        f.debug_struct("Record")
            .field("color", &self.color_declaration())
            .field("background_color", &self.background_color_declaration())
            .field("display", &self.display_declaration())
            .field("white_space", &self.white_space_declaration())
            .field("content", &content)
            .field("visibility", &self.visibility_declaration())
            .finish()
    }
}

/// The style of an element: what is declared for itself, for its `::before` and for its `::after`.
///
/// Two styles are equal where these are, wherever their contents lie: a run and a style call give equal styles.
#[derive(Clone, Copy)]
pub struct Style<'a> {
    numbers: &'a [u32],
    contents: Contents<'a>,
}

impl<'a> Style<'a> {
    /// The element's `color`.
    #[must_use]
    pub fn color(self) -> Option<Color> {
        self.main().color()
    }

    /// The element's `background-color`.
    #[must_use]
    pub fn background_color(self) -> Option<Color> {
        self.main().background_color()
    }

    /// Whether the element's `display` is `none`. Below such an element all others are hidden too.
    #[must_use]
    pub fn is_hidden(self) -> bool {
        self.main().is_hidden()
    }

    /// The element's `white-space`.
    #[must_use]
    pub fn white_space(self) -> Option<WhiteSpace> {
        self.main().white_space()
    }

    /// The bytes of the element's `content`.
    #[must_use]
    pub fn content(self) -> Option<&'a [u8]> {
        self.main().content()
    }

    /// The element's `visibility`.
    #[must_use]
    pub fn visibility(self) -> Option<Visibility> {
        self.main().visibility()
    }

    /// Whether the element's `visibility` is `hidden`: it is not seen, and keeps its place. An element in it may be visible.
    #[must_use]
    pub fn is_invisible(self) -> bool {
        self.main().is_invisible()
    }

    /// What is declared for the element itself.
    #[must_use]
    pub fn main(self) -> Record<'a> {
        self.record(MAIN)
    }

    /// What is declared for its `::before`, where something is.
    #[must_use]
    pub fn before(self) -> Option<Record<'a>> {
        self.present(BEFORE)
    }

    /// What is declared for its `::after`, where something is.
    #[must_use]
    pub fn after(self) -> Option<Record<'a>> {
        self.present(AFTER)
    }

    /// Its style row, as [`layout`](crate::layout) says where each number stands.
    #[must_use]
    pub const fn numbers(self) -> &'a [u32] {
        self.numbers
    }

    fn record(self, record: usize) -> Record<'a> {
        Record { numbers: &self.numbers[record_place(record)..][..RECORD_WIDTH], contents: self.contents }
    }

    fn present(self, record: usize) -> Option<Record<'a>> {
        is_present(self.numbers, record).then(|| self.record(record))
    }
}

impl PartialEq for Style<'_> {
    fn eq(&self, other: &Self) -> bool {
        self.main() == other.main() && self.before() == other.before() && self.after() == other.after()
    }
}

impl Eq for Style<'_> {}

impl fmt::Debug for Style<'_> {
    /// What is declared, in place of the numbers.
    fn fmt(&self, f: &mut fmt::Formatter<'_>) -> fmt::Result {
        f.debug_struct("Style").field("main", &self.main()).field("before", &self.before()).field("after", &self.after()).finish()
    }
}

/// Whether a style row has a record.
fn is_present(numbers: &[u32], record: usize) -> bool {
    numbers[record_place(record)] != 0
}

/// The style of one element, as [`Sheets::style`](crate::Sheets::style) and [`Sheets::style_book`](crate::Sheets::style_book) give it.
#[derive(Clone)]
pub struct StyledElement {
    numbers: Vec<u32>,
    texts: Vec<u8>,
}

impl StyledElement {
    pub(crate) const fn new(numbers: Vec<u32>, texts: Vec<u8>) -> Self {
        Self { numbers, texts }
    }

    /// The style.
    #[must_use]
    pub fn style(&self) -> Style<'_> {
        style_of(&self.numbers, &self.texts)
    }
}

impl fmt::Debug for StyledElement {
    /// Its style.
    fn fmt(&self, f: &mut fmt::Formatter<'_>) -> fmt::Result {
        self.style().fmt(f)
    }
}

/// The style of one element, of a style call's answer.
pub(crate) fn style_of<'a>(numbers: &'a [u32], texts: &'a [u8]) -> Style<'a> {
    Style { numbers, contents: Contents { compiled: &[], texts } }
}

/// The styles of all elements of a page, as [`Compiled::run`](crate::Compiled::run) gives them.
#[derive(Clone)]
pub struct Styles<'a> {
    compiled: &'a [u8],
    rows: Cow<'a, [u32]>,
    texts: Cow<'a, [u8]>,
}

impl<'a> Styles<'a> {
    /// Of a run's answer.
    pub(crate) fn new(compiled: &'a [u8], rows: impl Into<Cow<'a, [u32]>>, texts: impl Into<Cow<'a, [u8]>>) -> Self {
        Self { compiled, rows: rows.into(), texts: texts.into() }
    }

    /// The elements in page order, each with its row in the page and its style.
    #[must_use]
    pub fn elements(&self) -> Elements<'_> {
        Elements { rows: self.rows.chunks_exact(STYLE_ROW_WIDTH).enumerate(), contents: self.contents() }
    }

    /// The style of the element in a row of the page; `None` where the row is no element, or beyond the page.
    #[must_use]
    pub fn get(&self, row: usize) -> Option<Style<'_>> {
        let numbers = self.rows.chunks_exact(STYLE_ROW_WIDTH).nth(row)?;
        // An element's own record is always there, and rows of other nodes are zeros.
        is_present(numbers, MAIN).then(|| Style { numbers, contents: self.contents() })
    }

    /// The style rows of all nodes, one behind the other.
    #[must_use]
    pub fn numbers(&self) -> &[u32] {
        &self.rows
    }

    fn contents(&self) -> Contents<'_> {
        Contents { compiled: self.compiled, texts: &self.texts }
    }
}

impl fmt::Debug for Styles<'_> {
    /// The styles by their rows.
    fn fmt(&self, f: &mut fmt::Formatter<'_>) -> fmt::Result {
        f.debug_map().entries(self.elements()).finish()
    }
}

/// The elements of [`Styles`] in page order, each with its row in the page.
#[derive(Clone)]
pub struct Elements<'s> {
    rows: Enumerate<ChunksExact<'s, u32>>,
    contents: Contents<'s>,
}

impl<'s> Iterator for Elements<'s> {
    type Item = (usize, Style<'s>);

    fn next(&mut self) -> Option<Self::Item> {
        let (row, numbers) = self.rows.find(|(_, numbers)| is_present(numbers, MAIN))?;
        Some((row, Style { numbers, contents: self.contents }))
    }

    fn size_hint(&self) -> (usize, Option<usize>) {
        (0, self.rows.size_hint().1)
    }
}

impl FusedIterator for Elements<'_> {}

impl fmt::Debug for Elements<'_> {
    /// Those that are still to come.
    fn fmt(&self, f: &mut fmt::Formatter<'_>) -> fmt::Result {
        f.debug_map().entries(self.clone()).finish()
    }
}
