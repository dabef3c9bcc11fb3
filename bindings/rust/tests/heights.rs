//! Heights as exact lengths: every unit, what is no length, and what is refused.
use hicsolmab::layout::{BAD_LENGTH, NO_LENGTH, NO_REFUSAL, NOT_UTF8, SHEET_LIMIT, TOO_LONG};
use hicsolmab::{Length, Reason, Workspace, calls, height_length, height_length_in, lengths};

/// The eight units, and what one of them is.
const UNITS: [(&str, Length); 8] = [
    ("px", Length::Units(Length::PIXEL)),
    ("in", Length::Units(365_760_000)),
    ("cm", Length::Units(144_000_000)),
    ("mm", Length::Units(14_400_000)),
    ("pt", Length::Units(5_080_000)),
    ("pc", Length::Units(60_960_000)),
    ("em", Length::Em(10_000)),
    ("ex", Length::Ex(10_000)),
];

#[test]
fn every_unit() {
    for (name, one) in UNITS {
        assert_eq!(height_length(format!("1{name}").as_bytes()), Ok(Some(one)));
        assert_eq!(height_length(format!(" +1.0 {}/**/", name.to_uppercase()).as_bytes()), Ok(Some(one)));
        let least = height_length(format!(".0001{name}").as_bytes()).unwrap().unwrap();
        assert_eq!(least.amount() * 10_000, one.amount());
        assert_eq!(least.units().is_some(), one.units().is_some());
    }
}

#[test]
fn the_largest() {
    assert_eq!(height_length(b"10000in"), Ok(Some(Length::Units(3_657_600_000_000))));
}

#[test]
fn no_lengths() {
    for value in ["", "5", "auto", "5%", "5rem", "1px 1px", "1px;", "1.", "1..5px", "- 1px", "1px/*", "1e3px"] {
        assert_eq!(height_length(value.as_bytes()), Ok(None), "{value}");
    }
    for zero in ["0", "-0", ".0", "0.00000"] {
        assert_eq!(height_length(zero.as_bytes()), Ok(Some(Length::Units(0))), "{zero}");
    }
}

#[test]
fn refusals() {
    for (value, place) in [("1.00000px", 0), ("10000.0001px", 0), (" -1px", 1), ("/**/+ 1.00000px", 4)] {
        let refusal = height_length(value.as_bytes()).unwrap_err();
        assert_eq!((refusal.number(), refusal.reason(), refusal.text(), refusal.place()), (BAD_LENGTH, Reason::BadLength, 0, place), "{value}");
        assert_eq!(refusal.to_string(), format!("the number at byte {place} of the height has more than 4 decimals, is above 10000 or is below 0"));
    }
    let long = height_length(&vec![b' '; SHEET_LIMIT + 1]).unwrap_err();
    assert_eq!((long.number(), long.to_string()), (TOO_LONG, String::from("the height has more than 32768 bytes")));
    let bytes = height_length(b"1px\xff").unwrap_err();
    assert_eq!((bytes.number(), bytes.to_string()), (NOT_UTF8, String::from("the height is not UTF-8")));
}

#[test]
fn kept_buffers_and_own_ones() {
    let mut workspace = Workspace::new();
    for value in ["12.5mm", "0", "auto"] {
        assert_eq!(height_length_in(value.as_bytes(), &mut workspace), height_length(value.as_bytes()));
    }
    for (value, refusal) in [("1.5\\70x", NO_REFUSAL), ("x", NO_REFUSAL), ("-1px", BAD_LENGTH)] {
        let bytes = lengths::height_length_bytes(value.len());
        let (mut rules, mut tokens) = (vec![7; lengths::rules(bytes)], vec![7; lengths::tokens(bytes)]);
        let (mut brackets, mut texts) = (vec![7; lengths::brackets(bytes)], vec![7; lengths::texts(bytes)]);
        let stores = calls::Stores { rules: &mut rules, tokens: &mut tokens, brackets: &mut brackets, texts: &mut texts };
        let result = calls::height_length(value.as_bytes(), stores);
        assert_eq!(result.refusal, refusal);
        assert!(result.kind != NO_LENGTH || result.amount == 0);
        assert!(rules.iter().chain(&tokens).all(|number| *number == 0) && brackets.iter().chain(&texts).all(|byte| *byte == 0));
    }
}
