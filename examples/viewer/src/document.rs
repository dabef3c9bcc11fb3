//! A page and what belongs to it: its rows, the text of its nodes, and its own sheet.
use crate::dom::{DOCUMENT, Data, Dom, Handle};
use hicsolmab::{Page, Refusal};

pub struct Document {
    pub page: Page,
    /// For each row its text, where it is one.
    pub texts: Vec<Option<String>>,
    /// What the page's `style` elements say, one behind the other.
    pub sheet: String,
}

impl Document {
    /// The rows of a page. It is refused where it is larger or deeper than the engine takes.
    pub fn new(dom: &Dom) -> Result<Document, Refusal> {
        let mut document = Document { page: Page::new(), texts: vec![None], sheet: String::new() };
        let mut sheets = vec![];
        for &child in &dom.nodes[DOCUMENT].children {
            document.add(dom, child, &mut sheets)?;
        }
        document.sheet = joined(&sheets)?;
        Ok(document)
    }

    fn add(&mut self, dom: &Dom, node: Handle, sheets: &mut Vec<String>) -> Result<(), Refusal> {
        let Data::Element { name, attributes, .. } = &dom.nodes[node].data else {
            self.page.other()?;
            self.texts.push(match &dom.nodes[node].data {
                Data::Text(text) => Some(text.clone()),
                _ => None,
            });
            return Ok(());
        };
        self.page.open(&name.local, attributes.iter().map(|attribute| (&*attribute.name.local, &*attribute.value)))?;
        self.texts.push(None);
        if &name.local == "style" {
            sheets.push(dom.text_in(node));
        }
        for &child in &dom.nodes[node].children {
            self.add(dom, child, sheets)?;
        }
        self.page.close();
        Ok(())
    }
}

// html2text reads each `style` element by itself, so that one in which reading stops does not end the next. The engine takes one sheet: of each the part up to the end of its last rule.
fn joined(sheets: &[String]) -> Result<String, Refusal> {
    let mut all = String::new();
    for sheet in sheets {
        all.push_str(rules_of(sheet)?);
    }
    Ok(all)
}

// The shortest beginning of a sheet that has all rules that are read of it. A rule ends in `}`; what stands behind the last is an at-rule, which says nothing, or is not read.
fn rules_of(sheet: &str) -> Result<&str, Refusal> {
    let count = |part: &str| hicsolmab::read_sheet(part.as_bytes()).map(|read| read.rules);
    let rules = count(sheet)?;
    let mut part = if rules == 0 { "" } else { sheet };
    while let Some(end) = part.rfind('}') {
        let closed = &part[..=end];
        let before = part[..end].rfind('}').map_or("", |end| &part[..=end]);
        if count(before)? < rules {
            return Ok(closed);
        }
        part = before;
    }
    Ok(part)
}

#[cfg(test)]
mod tests {
    use super::*;

    fn of(sheets: &[&str]) -> String {
        joined(&sheets.iter().map(ToString::to_string).collect::<Vec<_>>()).expect("sheets that are read")
    }

    #[test]
    fn a_sheet_that_stops_does_not_end_the_next() {
        assert_eq!(of(&["p{color:red} q{color} a{color:lime}", "b{color:blue}"]), "p{color:red}b{color:blue}");
    }

    #[test]
    fn an_at_rule_that_is_open_swallows_nothing() {
        assert_eq!(of(&["p{color:red} @x{} @y (", "b{color:blue}\n"]), "p{color:red}b{color:blue}");
        assert_eq!(of(&["@x{p{}} ", "", "b{}"]), "b{}");
    }

    #[test]
    fn rows() {
        let document = Document::new(&crate::dom::parse(b"<!DOCTYPE html><p class=k>a<!-- b --><b>c</b>")).expect("a page that is accepted");
        let names: Vec<Option<&str>> = (0..document.page.row_count()).map(|row| document.page.name(row)).collect();
        assert_eq!(names, [None, None, Some("html"), Some("head"), Some("body"), Some("p"), None, None, Some("b"), None]);
        let texts: Vec<&str> = document.texts.iter().flatten().map(String::as_str).collect();
        assert_eq!(texts, ["a", "c"]);
    }
}
