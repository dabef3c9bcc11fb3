//! Appended to css.rs: the questions that html2text is asked, by its own functions. Where it panics the answer is None.
use std::cell::RefCell;
use std::panic::{self, AssertUnwindSafe};

use html5ever::{Attribute, LocalName, QualName};

use super::parser::names::Told;
use super::{AttrOperator, PseudoElement, Ruleset, Selector, SelectorComponent, Style, StyleData, StyleDecl, parser};
use crate::answers::{self, Component, Page, RECORD_WIDTH, SLOT_START, SLOT_WIDTH, SLOTS, StyleRow, Styled, VISIBILITY_SLOT};
use crate::markup5ever_rcdom::{Handle, Node, NodeData, add_child};
use crate::{Colour, ComputedStyle, Specificity, StyleOrigin, WhiteSpace, WithSpec, css};

/// Panics say nothing from now on.
pub fn silence_panics() {
    panic::set_hook(Box::new(|_| {}));
}

fn unless_panic<T>(question: impl FnOnce() -> T) -> Option<T> {
    panic::catch_unwind(AssertUnwindSafe(question)).ok()
}

// ---- from the crate's values to plain data

fn colour(r: u8, g: u8, b: u8) -> u32 {
    u32::from(r) * 65536 + u32::from(g) * 256 + u32::from(b)
}

fn parsed_colour(value: &parser::Colour) -> u32 {
    let parser::Colour::Rgb(r, g, b) = value;
    colour(*r, *g, *b)
}

fn styled_colour(value: &Colour) -> u32 {
    colour(value.r, value.g, value.b)
}

fn white_space(value: WhiteSpace) -> u32 {
    match value {
        WhiteSpace::Normal => 0,
        WhiteSpace::Pre => 1,
        WhiteSpace::PreWrap => 2,
    }
}

fn overflow(value: &parser::Overflow) -> u32 {
    match value {
        parser::Overflow::Visible => 0,
        parser::Overflow::Hidden => 1,
        parser::Overflow::Scroll => 2,
        parser::Overflow::Auto => 3,
    }
}

fn is_zero(value: &parser::Height) -> bool {
    matches!(value, parser::Height::Length(l, _) if *l == 0.0)
}

fn text(value: &str) -> Vec<u8> {
    value.as_bytes().to_vec()
}

fn component(value: &SelectorComponent) -> Component {
    match value {
        SelectorComponent::Class(t) => Component::Class(text(t)),
        SelectorComponent::Element(t) => Component::Element(text(t)),
        SelectorComponent::Hash(t) => Component::Hash(text(t)),
        SelectorComponent::Star => Component::Star,
        SelectorComponent::CombChild => Component::Child,
        SelectorComponent::CombDescendant => Component::Descendant,
        SelectorComponent::NthChild { a, b, .. } => Component::Nth(*a, *b),
        SelectorComponent::Attr { name, op: AttrOperator::Present, .. } => Component::Attribute(text(name)),
        SelectorComponent::Attr { name, value, op: AttrOperator::Equal } => {
            Component::AttributeEqual(text(name), text(value.as_ref().expect("a value to be equal to")))
        }
    }
}

fn selector(value: &Selector) -> answers::Selector {
    answers::Selector {
        components: value.components.iter().map(component).collect(),
        pseudo: match value.pseudo_element {
            None => 0,
            Some(PseudoElement::Before) => 1,
            Some(PseudoElement::After) => 2,
        },
    }
}

fn decl(value: &parser::Decl) -> answers::Decl {
    use answers::Decl;
    match value {
        parser::Decl::Color { value } => Decl::Color(parsed_colour(value)),
        parser::Decl::BackgroundColor { value } => Decl::BackgroundColor(parsed_colour(value)),
        parser::Decl::Height { value } => Decl::Height { zero: is_zero(value) },
        parser::Decl::MaxHeight { value } => Decl::MaxHeight { zero: is_zero(value) },
        parser::Decl::Overflow { value } => Decl::Overflow(overflow(value)),
        parser::Decl::OverflowY { value } => Decl::OverflowY(overflow(value)),
        parser::Decl::Display { value } => Decl::Display { none: *value == parser::Display::None },
        parser::Decl::WhiteSpace { value } => Decl::WhiteSpace(white_space(*value)),
        parser::Decl::Content { text: t } => Decl::Content(text(t)),
        parser::Decl::Unknown { name } => Decl::Unknown(text(parser::names::text(name))),
    }
}

fn style((value, &start): (&StyleDecl, &usize)) -> answers::StyleDecl {
    answers::StyleDecl {
        start,
        style: match &value.style {
            Style::Colour(c) => answers::Style::Colour(styled_colour(c)),
            Style::BgColour(c) => answers::Style::Background(styled_colour(c)),
            Style::Display(css::Display::None) => answers::Style::DisplayNone,
            Style::WhiteSpace(w) => answers::Style::WhiteSpace(white_space(*w)),
            Style::Content(content) => answers::Style::Content(text(&content.text)),
        },
        important: value.importance == super::Importance::Important,
    }
}

// Styles with the starts of their declarations.
fn styles(values: &[StyleDecl], starts: &[usize]) -> Vec<answers::StyleDecl> {
    assert_eq!(values.len(), starts.len(), "each style has a start");
    values.iter().zip(starts).map(style).collect()
}

// A declaration; what html2text calls an unknown one may be a visibility.
fn told_decl(value: &parser::Decl, told: Told) -> answers::Decl {
    let own = decl(value);
    let Some(hidden) = told.hides else { return own };
    assert_eq!(own, answers::Decl::Unknown(b"visibility".to_vec()), "html2text knows no visibility");
    answers::Decl::Visibility { hidden }
}

fn declarations(values: &[parser::Declaration], told: &[Told]) -> Vec<answers::Declaration> {
    assert_eq!(values.len(), told.len(), "each declaration has a start");
    let declaration = |(d, &told): (&parser::Declaration, &Told)| answers::Declaration {
        decl: told_decl(&d.data, told),
        important: d.important == super::Importance::Important,
        start: told.start,
    };
    values.iter().zip(told).map(declaration).collect()
}

fn rule(value: &parser::RuleSet, told: &(usize, Vec<Told>)) -> answers::Rule {
    answers::Rule { selectors: value.selectors.iter().map(selector).collect(), declarations: declarations(&value.declarations, &told.1), start: told.0 }
}

// ---- reading

fn with_told(sheet: &str, rules: &[parser::RuleSet]) -> Vec<answers::Rule> {
    let told = parser::names::told(sheet);
    assert_eq!(rules.len(), told.len(), "each rule has a start");
    rules.iter().zip(&told).map(|(r, t)| rule(r, t)).collect()
}

/// `parse_stylesheet`: the rules of a sheet and the first byte not read.
pub fn read_sheet(sheet: &str) -> Option<answers::Sheet> {
    let (rest, rules) = unless_panic(|| parser::parse_stylesheet(sheet).expect("many0 reads"))?;
    Some(answers::Sheet { rules: with_told(sheet, &rules), stop: sheet.len() - rest.len() })
}

/// `parse_stylesheet`, and nothing but it, to be measured: the count of rules.
pub fn count_rules(sheet: &str) -> usize {
    parser::parse_stylesheet(sheet).map_or(0, |(_, rules)| rules.len())
}

/// `parse_style_attribute`: the styles of a style attribute.
pub fn style_attribute(value: &str) -> Option<Vec<answers::StyleDecl>> {
    let found = unless_panic(|| parser::parse_style_attribute(value).unwrap_or_default())?;
    let (_, declared) = parser::parse_rules(value).expect("separated_list0 reads");
    let declared = declarations(&declared, &parser::names::attribute_told(value));
    Some(answers::with_visibility(&declared, styles(&found, &answers::style_starts(&declared))))
}

/// `parse_color_attribute`: the colour of a colour attribute, or none.
pub fn color_attribute(value: &str) -> Option<Option<u32>> {
    unless_panic(|| parser::parse_color_attribute(value).ok().map(|c| parsed_colour(&c)))
}

// ---- sheets over a page

fn style_data(agent: &str, user: &str, author: &str) -> StyleData {
    let mut data = StyleData::default();
    data.add_agent_css(agent).expect("an agent sheet reads");
    data.add_user_css(user).expect("a user sheet reads");
    data.add_author_css(author).expect("an author sheet reads");
    data
}

// A selector, and the styles of its rule.
struct StyledSelector {
    from: StyleOrigin,
    selector: Selector,
    styles: Vec<answers::StyleDecl>,
}

// Those of a sheet, in reading order: the ones that `do_add_css` kept of it, and those of rules that have visibility alone.
fn selectors_of_sheet(from: StyleOrigin, sheet: &str, kept: &[Ruleset]) -> Vec<StyledSelector> {
    let (_, rules) = parser::parse_stylesheet(sheet).expect("many0 reads");
    let read = with_told(sheet, &rules);
    let (mut kept, mut all) = (kept.iter().peekable(), vec![]);
    for (rule, read) in rules.into_iter().zip(&read) {
        let starts = answers::style_starts(&read.declarations);
        for selector in rule.selectors {
            let own = kept.next_if(|_| !starts.is_empty());
            assert!(own.is_none_or(|kept| kept.selector == selector), "a selector is that of another rule");
            let styles = answers::with_visibility(&read.declarations, own.map_or(vec![], |kept| styles(&kept.styles, &starts)));
            all.extend((!styles.is_empty()).then_some(StyledSelector { from, selector, styles }));
        }
    }
    assert!(kept.next().is_none(), "each rule that is kept was read");
    all
}

// Those of three sheets in the order in which `computed_style` goes through them.
fn selectors_of_sheets(data: &StyleData, sheets: [&str; 3]) -> Vec<StyledSelector> {
    let origins = [(StyleOrigin::Agent, &data.agent_rules), (StyleOrigin::User, &data.user_rules), (StyleOrigin::Author, &data.author_rules)];
    origins.into_iter().zip(sheets).flat_map(|((from, kept), sheet)| selectors_of_sheet(from, sheet, kept)).collect()
}

/// The compiled bytes of what `do_add_css` keeps of the three sheets, and of visibility.
pub fn compile(agent: &str, user: &str, author: &str) -> Option<Vec<u8>> {
    let data = unless_panic(|| style_data(agent, user, author))?;
    let styled = |rule: StyledSelector| Styled { origin: origin(rule.from), selector: selector(&rule.selector), styles: rule.styles };
    Some(answers::compiled(&selectors_of_sheets(&data, [agent, user, author]).into_iter().map(styled).collect::<Vec<_>>()))
}

fn local_attribute((name, value): (&str, &str)) -> Attribute {
    Attribute { name: QualName::new(None, ns!(), LocalName::from(name)), value: value.into() }
}

fn node(page: &Page, row: usize) -> Handle {
    Node::new(match page.kind(row) {
        answers::DOCUMENT_KIND => NodeData::Document,
        answers::ELEMENT_KIND => NodeData::Element {
            name: QualName::new(None, ns!(html), LocalName::from(page.name(row))),
            attrs: RefCell::new(page.attributes_of(row).into_iter().map(local_attribute).collect()),
            template_contents: RefCell::new(None),
            mathml_annotation_xml_integration_point: false,
        },
        _ => NodeData::Comment { contents: "".into() },
    })
}

// A node of the crate's DOM for each row.
fn tree(page: &Page) -> Vec<Handle> {
    let handles: Vec<Handle> = (0..page.rows()).map(|row| node(page, row)).collect();
    for row in 1..page.rows() {
        add_child(&handles[page.parent(row)], handles[row].clone());
    }
    handles
}

/// A selector, its specificity, and for each element of a page whether it matches.
#[derive(Debug, Clone, PartialEq, Eq)]
pub struct Matched {
    pub selector: answers::Selector,
    pub specificity: answers::Specificity,
    pub elements: Vec<bool>,
}

fn specificity(value: &Selector) -> answers::Specificity {
    let specificity = value.specificity();
    answers::Specificity { ids: specificity.id.into(), classes: specificity.class.into(), types: specificity.typ.into() }
}

fn matched(value: &Selector, elements: &[Handle]) -> Matched {
    Matched {
        selector: selector(value),
        specificity: specificity(value),
        elements: elements.iter().map(|e| Selector::do_matches(&value.components, e)).collect(),
    }
}

/// `do_matches` and `specificity` of each selector of each rule of a sheet, over the elements of a page.
pub fn matches(sheet: &str, page: &Page) -> Option<Vec<Matched>> {
    let handles = tree(page);
    let elements: Vec<Handle> = page.elements().into_iter().map(|row| handles[row].clone()).collect();
    unless_panic(|| {
        let (_, rules) = parser::parse_stylesheet(sheet).expect("many0 reads");
        rules.iter().flat_map(|r| &r.selectors).map(|s| matched(s, &elements)).collect()
    })
}

/// A selector and the nodes of a page, for `do_matches` to be measured.
pub struct Asked {
    components: Vec<SelectorComponent>,
    handles: Vec<Handle>,
}

/// The components of the first selector of a sheet, so many times over, for a page.
pub fn ask(sheet: &str, times: usize, page: &Page) -> Asked {
    let (_, rules) = parser::parse_stylesheet(sheet).expect("many0 reads");
    let components = vec![rules[0].selectors[0].components.clone(); times].concat();
    Asked { components, handles: tree(page) }
}

impl Asked {
    /// As plain data.
    pub fn components(&self) -> Vec<Component> {
        self.components.iter().map(component).collect()
    }

    /// `do_matches`, and nothing but it.
    pub fn matches(&self, row: usize) -> bool {
        Selector::do_matches(&self.components, &self.handles[row])
    }
}

// ---- computed styles

fn origin(value: StyleOrigin) -> u32 {
    match value {
        StyleOrigin::None => 0,
        StyleOrigin::Agent => 1,
        StyleOrigin::User => 2,
        StyleOrigin::Author => 3,
    }
}

fn put_slot<T>(row: &mut StyleRow, slot: &WithSpec<T>, value: impl FnOnce(&T) -> u32) {
    let spec = &slot.specificity;
    row.numbers.extend([
        u32::from(slot.val.is_some()),
        origin(slot.origin),
        u32::from(spec.inline),
        spec.id.into(),
        spec.class.into(),
        spec.typ.into(),
        u32::from(slot.important),
        slot.val.as_ref().map_or(0, value),
        0,
        0,
    ]);
}

fn put_record(row: &mut StyleRow, record: Option<&ComputedStyle>) {
    let empty = ComputedStyle::default();
    let style = record.unwrap_or(&empty);
    row.numbers.push(u32::from(record.is_some()));
    put_slot(row, &style.colour, styled_colour);
    put_slot(row, &style.bg_colour, styled_colour);
    put_slot(row, &style.display, |_| 0);
    put_slot(row, &style.white_space, |w| white_space(*w));
    put_slot(row, &style.content, |_| 0);
    // The slot of visibility, which html2text does not have.
    row.numbers.extend([0; SLOT_WIDTH]);
    row.contents.push(style.content.val.as_ref().map_or(vec![], |c| text(&c.text)));
}

fn style_row(style: &ComputedStyle) -> StyleRow {
    let mut row = StyleRow::default();
    put_record(&mut row, Some(style));
    put_record(&mut row, style.content_before.as_deref());
    put_record(&mut row, style.content_after.as_deref());
    row
}

/// What a selector that matches an element says of it. Origin is 1 for agent, 2 for user, 3 for author.
#[derive(Debug, Clone, PartialEq, Eq)]
pub struct Applied {
    pub origin: u32,
    pub pseudo: u32,
    pub specificity: answers::Specificity,
    pub styles: Vec<answers::StyleDecl>,
}

fn applied(rule: &StyledSelector) -> Applied {
    Applied { origin: origin(rule.from), pseudo: selector(&rule.selector).pseudo, specificity: specificity(&rule.selector), styles: rule.styles.clone() }
}

/// For each element of a page, in row order, what the selectors that match it say, in the order in which `computed_style` goes through them.
pub fn applied_rules(sheets: [&str; 3], page: &Page) -> Option<Vec<Vec<Applied>>> {
    let [agent, user, author] = sheets;
    let handles = tree(page);
    unless_panic(|| {
        let data = style_data(agent, user, author);
        let rules = selectors_of_sheets(&data, sheets);
        let of_element = |row: usize| rules.iter().filter(|rule| rule.selector.matches(&handles[row])).map(applied).collect();
        page.elements().into_iter().map(of_element).collect()
    })
}

/// The nodes of a page on the way down to a row, for the style of an element to be measured.
pub struct Path {
    handles: Vec<Handle>,
    rows: Vec<usize>,
}

/// The way down to an element.
pub fn path(page: &Page, row: usize) -> Path {
    let mut rows = vec![];
    let mut at = row;
    while at > 0 {
        rows.push(at);
        at = page.parent(at);
    }
    rows.reverse();
    Path { handles: tree(page), rows }
}

impl Path {
    fn computed(&self, sheets: [&str; 3], document_styles: bool) -> ComputedStyle {
        let [agent, user, author] = sheets;
        let data = style_data(agent, user, author);
        let below = |parent: ComputedStyle, &row: &usize| data.computed_style(&parent, &self.handles[row], document_styles);
        self.rows.iter().fold(ComputedStyle::default(), below)
    }

    /// Reading three sheets, then `computed_style` down to the row, and nothing but them.
    pub fn style(&self, sheets: [&str; 3], document_styles: bool) {
        std::hint::black_box(self.computed(sheets, document_styles));
    }

    /// The style that this leads to, as a row without starts.
    pub fn style_row(&self, sheets: [&str; 3], document_styles: bool) -> StyleRow {
        style_row(&self.computed(sheets, document_styles))
    }
}

/// Three sheets that are read and the nodes of a page, for the styles of all its elements to be measured.
pub struct Whole {
    data: StyleData,
    handles: Vec<Handle>,
    parents: Vec<Option<usize>>,
}

/// Sheets and a page; an element has its parent's row, another node none.
pub fn whole(sheets: [&str; 3], page: &Page) -> Whole {
    let [agent, user, author] = sheets;
    let parents = (0..page.rows()).map(|row| (page.kind(row) == answers::ELEMENT_KIND).then(|| page.parent(row))).collect();
    Whole { data: style_data(agent, user, author), handles: tree(page), parents }
}

impl Whole {
    fn computed(&self, document_styles: bool) -> Vec<ComputedStyle> {
        let mut styles = Vec::with_capacity(self.parents.len());
        for (handle, parent) in self.handles.iter().zip(&self.parents) {
            let style = match *parent {
                Some(parent) => self.data.computed_style(&styles[parent], handle, document_styles),
                None => ComputedStyle::default(),
            };
            styles.push(style);
        }
        styles
    }

    /// `computed_style` of all elements in page order, each with its parent's result, and nothing but it.
    pub fn style(&self, document_styles: bool) {
        std::hint::black_box(self.computed(document_styles));
    }

    /// The styles of the elements, as rows without starts.
    pub fn style_rows(&self, document_styles: bool) -> Vec<StyleRow> {
        let styles = self.computed(document_styles);
        self.parents.iter().zip(&styles).filter(|(parent, _)| parent.is_some()).map(|(_, style)| style_row(style)).collect()
    }
}

// ---- the starts of computed styles, and visibility: html2text has neither, so its own `maybe_update` is handed starts beside the values, in the order of `computed_style`

// What won in each slot: its number and its start.
type Won = [[WithSpec<(u32, u32)>; SLOTS]; RECORDS];
const RECORDS: usize = 3;
const MAIN: usize = 0;

fn won_by_element(parent: &Won, rules: &[StyledSelector], handle: &Handle, attributes: &[(&str, &str)]) -> Won {
    let mut all = parent.clone();
    let value = |style: &answers::Style, start: usize| (style.number(), start as u32);
    for rule in rules.iter().filter(|rule| rule.selector.matches(handle)) {
        let record = selector(&rule.selector).pseudo as usize;
        for said in &rule.styles {
            all[record][said.style.slot() as usize].maybe_update(said.important, rule.from, rule.selector.specificity(), value(&said.style, said.start));
        }
    }
    for &(name, text) in attributes {
        let colour = || color_attribute(text).expect("a colour attribute never panics").into_iter();
        let said: Vec<(answers::Style, usize)> = match name {
            "style" => style_attribute(text).expect("a style attribute never panics").into_iter().map(|s| (s.style, s.start)).collect(),
            "color" => colour().map(|c| (answers::Style::Colour(c), 0)).collect(),
            "bgcolor" => colour().map(|c| (answers::Style::Background(c), 0)).collect(),
            _ => vec![],
        };
        for (style, start) in said {
            all[MAIN][style.slot() as usize].maybe_update(false, StyleOrigin::Author, Specificity::inline(), value(&style, start));
        }
    }
    all
}

// The record with its starts and its visibility. What html2text has in a slot is what won among the starts.
fn put_won(record: &mut [u32], won: &[WithSpec<(u32, u32)>; SLOTS]) {
    let slots = record[1..].chunks_mut(SLOT_WIDTH);
    for (number, (slot, won)) in slots.zip(won).enumerate() {
        let mut own = StyleRow::default();
        put_slot(&mut own, won, |value| value.0);
        if number == VISIBILITY_SLOT {
            slot.copy_from_slice(&own.numbers);
        }
        assert_eq!(slot, own.numbers, "a start is that of another declaration");
        slot[SLOT_START] = won.val.map_or(0, |value| value.1);
    }
}

// The row with its starts and its visibility, which alone may make a record present.
fn with_won(mut row: StyleRow, won: &Won) -> StyleRow {
    for (record, won) in row.numbers.chunks_mut(RECORD_WIDTH).zip(won) {
        put_won(record, won);
        record[0] |= record[1 + VISIBILITY_SLOT * SLOT_WIDTH];
    }
    row
}

/// `computed_style` of each element of a page, in row order, with the starts of what won, and visibility.
pub fn computed_styles(sheets: [&str; 3], page: &Page, document_styles: bool) -> Option<Vec<StyleRow>> {
    let [agent, user, author] = sheets;
    let handles = tree(page);
    unless_panic(|| {
        let data = style_data(agent, user, author);
        let rules = selectors_of_sheets(&data, sheets);
        let mut styles = vec![ComputedStyle::default(); page.rows()];
        let mut won = vec![Won::default(); page.rows()];
        for row in page.elements() {
            let attributes = if document_styles { page.attributes_of(row) } else { vec![] };
            styles[row] = data.computed_style(&styles[page.parent(row)], &handles[row], document_styles);
            won[row] = won_by_element(&won[page.parent(row)], &rules, &handles[row], &attributes);
        }
        page.elements().into_iter().map(|row| with_won(style_row(&styles[row]), &won[row])).collect()
    })
}

#[cfg(test)]
mod tests {
    use super::*;

    // Cases of the scope.
    #[test]
    fn sheets() {
        let sheet = read_sheet("p{color:red}").unwrap();
        assert_eq!((sheet.rules.len(), sheet.stop), (1, 12));
        let sheet = read_sheet("p{color:red;;color:blue}q{color:lime}").unwrap();
        assert_eq!((sheet.rules.len(), sheet.stop), (0, 0));
        assert_eq!(read_sheet(":nth-child(2147483647){}").unwrap().rules.len(), 1);
        assert_eq!(read_sheet(":nth-child(2147483648){}"), None);
        assert_eq!(read_sheet("[a="), None);
    }

    #[test]
    fn starts() {
        let sheet = read_sheet("@x; p{a:b; c:d} q { e:f }").unwrap();
        let starts: Vec<usize> = sheet.rules.iter().map(|r| r.start).collect();
        assert_eq!(starts, [4, 16]);
        let declarations = |i: usize| -> Vec<usize> { sheet.rules[i].declarations.iter().map(|d| d.start).collect() };
        assert_eq!((declarations(0), declarations(1)), (vec![6, 11], vec![20]));
        let styles = |value: &str| -> Vec<usize> { style_attribute(value).unwrap().iter().map(|s| s.start).collect() };
        assert_eq!(styles(" color:red; zz:1;/**/\\63olor:red"), [1, 21]);
        assert_eq!(styles("overflow:hidden;height:5px;max-height:0;height:0;display:none"), [49, 27]);
        let compiled = compile("", "", "p{zz:1}p,q{height:0;overflow:hidden}{color:red}").unwrap();
        assert_eq!(compiled, [2, 3, 0, 1, 2, 1, b'p', 1, 0, 11, 2, 3, 0, 1, 2, 1, b'q', 1, 0, 11, 2]);
    }

    #[test]
    fn visibility() {
        use answers::{Decl, Style};
        let known = |value: &str| -> Vec<Decl> { read_sheet(&format!("p{{{value}}}")).unwrap().rules[0].declarations.iter().map(|d| d.decl.clone()).collect() };
        let hidden = |hidden: bool| vec![Decl::Visibility { hidden }];
        assert_eq!(known("visibility:hidden"), hidden(true));
        assert_eq!(known("VISIBILITY : /**/hidd\\65n !important"), hidden(true));
        assert_eq!(known("visibility:visible"), hidden(false));
        for unknown in ["collapse", "hidden visible", "'hidden'", "hidden,", "", "hid\\64 en", "\\48idden", "hidden()", "!important"] {
            assert_eq!(known(&format!("visibility:{unknown}")), [Decl::Unknown(b"visibility".to_vec())], "{unknown}");
        }
        let styles: Vec<Style> = style_attribute("height:0;visibility:visible;overflow:hidden;color:red").unwrap().into_iter().map(|s| s.style).collect();
        assert_eq!(styles, [Style::Visibility(0), Style::Colour(0xff0000), Style::DisplayNone]);
        assert_eq!(compile("", "", "q{zz:1}p{visibility:hidden}").unwrap(), [1, 3, 0, 1, 2, 1, b'p', 1, 0, 9, 5, 1]);
        assert_eq!(compile("", "", "p{color:red;visibility:hidden}").unwrap(), [1, 3, 0, 1, 2, 1, b'p', 2, 0, 2, 0, 0x80, 0x80, 0xfc, 7, 0, 12, 5, 1]);
    }

    #[test]
    fn bytes() {
        let expected = [1, 3, 0, 1, 2, 1, b'p', 1, 0, 2, 0, 0x80, 0x80, 0xfc, 7];
        assert_eq!(compile("", "", "p{color:red}").unwrap(), expected);
        assert_eq!(compile("", "", "").unwrap(), [0]);
    }

    #[test]
    fn colours() {
        assert_eq!(color_attribute("#\\+ff"), Some(Some(0x00ffff)));
        assert_eq!(color_attribute("00aabb"), Some(Some(0x00aabb)));
        assert_eq!(color_attribute("no"), Some(None));
    }

    #[test]
    fn pages() {
        let page = Page { nodes: vec![0, 0, 0, 0, 0, 0, 1, 0, 0, 3, 0, 1], attributes: vec![3, 5, 8, 1], text: b"divclassk".to_vec() };
        let answer = matches("div *{}.k{}q{}", &page).unwrap();
        let elements: Vec<bool> = answer.iter().map(|m| m.elements[0]).collect();
        assert_eq!(elements, [true, true, false]);
        let sheets = ["", "", ".k{color:red}"];
        let rows = computed_styles(sheets, &page, true).unwrap();
        assert_eq!(rows[0].numbers.len(), answers::STYLE_ROW_WIDTH);
        assert_eq!(rows[0].numbers[..11], [1, 1, 3, 0, 0, 1, 0, 0, 0xff0000, 0, 3]);
        let rows: Vec<StyleRow> = rows.into_iter().map(StyleRow::without_starts).collect();
        assert_eq!(path(&page, 1).style_row(sheets, true), rows[0]);
        assert_eq!(whole(sheets, &page).style_rows(true), rows);
        let applied = applied_rules(["q{color:red}", "*{content:''}", ".k,div{color:red}"], &page).unwrap();
        let said: Vec<(u32, u32)> = applied[0].iter().map(|a| (a.origin, a.specificity.classes)).collect();
        assert_eq!(said, [(2, 0), (3, 1), (3, 0)]);
        // A pseudo record that only visibility makes present, and that html2text does not have.
        let hidden = &computed_styles(["", "", "div::after{visibility:hidden}"], &page, true).unwrap()[0];
        assert_eq!(hidden.numbers[RECORD_WIDTH], 0);
        assert_eq!(hidden.numbers[2 * RECORD_WIDTH], 1);
        assert_eq!(hidden.numbers[3 * RECORD_WIDTH - SLOT_WIDTH..], [1, 3, 0, 0, 0, 1, 0, 1, 0, 11]);
    }
}
