// Appended to css/parser.rs: what a question needs that is private there.
pub(crate) mod names {
    use super::*;

    // The name of an unknown declaration.
    pub(crate) fn text(name: &PropertyName) -> &str {
        &name.0
    }

    // What the crate does not say of a declaration: the byte where it starts, and of visibility, which it does not know, whether it hides.
    #[derive(Clone, Copy)]
    pub(crate) struct Told {
        pub(crate) start: usize,
        pub(crate) hides: Option<bool>,
    }

    // The rules of a sheet with the byte where each starts, and its declarations. The crate does not say these: its own
    // readers are called one after the other, as parse_stylesheet, parse_ruleset and parse_rules call them, and asked where they stand.
    pub(crate) fn told(sheet: &str) -> Vec<(usize, Vec<Told>)> {
        let place = |rest: &str| sheet.len() - rest.len();
        let mut found = Vec::new();
        let mut rest = sheet;
        while let Ok((next, statement)) = parse_statement(rest) {
            if next.len() == rest.len() {
                break;
            }
            if statement.is_some() {
                let (rule, _) = skip_optional_whitespace(rest).unwrap();
                found.push((place(rule), declarations(rule).into_iter().map(|rest| told_of(rest, place(rest))).collect()));
            }
            rest = next;
        }
        found
    }

    // The rest of the text at each declaration of a rule that reads.
    fn declarations(rule: &str) -> Vec<&str> {
        let (rest, _) = separated_list0((tag(","), skip_optional_whitespace), parse_selector).parse(rule).unwrap();
        let (rest, _) = (skip_optional_whitespace, tag("{"), skip_optional_whitespace).parse(rest).unwrap();
        declared(rest)
    }

    // The declarations of a style attribute, as parse_style_attribute has them from parse_rules.
    pub(crate) fn attribute_told(value: &str) -> Vec<Told> {
        declared(value).into_iter().map(|rest| told_of(rest, value.len() - rest.len())).collect()
    }

    fn told_of(declaration: &str, start: usize) -> Told {
        Told { start, hides: hides(declaration) }
    }

    // Visibility is known with one word, `visible` or `hidden`. It is read as parse_declaration reads.
    fn hides(declaration: &str) -> Option<bool> {
        let read: IResult<&str, _> = (parse_property_name, skip_optional_whitespace, tag(":"), skip_optional_whitespace, parse_value).parse(declaration);
        let (_, (name, _, _, _, value)) = read.ok()?;
        match &value.tokens[..] {
            [Token::Ident(word)] if text(&name) == "visibility" => ["visible", "hidden"].iter().position(|w| *w == word.deref()).map(|number| number == 1),
            _ => None,
        }
    }

    // The rest of a text at each of its declarations; white space may stand before the first.
    fn declared(text: &str) -> Vec<&str> {
        let mut rest = text;
        let mut found = Vec::new();
        while let Ok((behind, _)) = parse_declaration(rest) {
            found.push(skip_optional_whitespace(rest).unwrap().0);
            let between: IResult<&str, _> = (tag(";"), skip_optional_whitespace).parse(behind);
            match between {
                Ok((next, _)) => rest = next,
                Err(_) => break,
            }
        }
        found
    }
}
