//! A height's value as an exact length a second time, plainly: the value is cut into its parts from left to right, and its number is a whole number of any size.
//! html2text has no such call; what is meant is told by the request alone, and by html2text's tokens.
use crate::engine::{LengthResult, Stores};
use crate::generate;
use crate::questions::{Answer, FILLING, Input, all_clear};
use crate::random::Random;
use std::cmp::Ordering;

/// What the value is.
#[derive(Debug, Clone, Copy, PartialEq, Eq)]
enum Length {
    None,
    Of { kind: u32, amount: u64 },
    Refused { place: usize },
}

const BAD_LENGTH: u32 = 12;
const UNIT_KIND: u32 = 1;
const MOST_DECIMALS: usize = 4;
const MOST: u32 = 10_000;

// The units: what is counted, and how much of it one of them is.
const UNITS: [(&str, u32, u32); 8] = [
    ("px", UNIT_KIND, 3_810_000),
    ("in", UNIT_KIND, 365_760_000),
    ("cm", UNIT_KIND, 144_000_000),
    ("mm", UNIT_KIND, 14_400_000),
    ("pt", UNIT_KIND, 5_080_000),
    ("pc", UNIT_KIND, 60_960_000),
    ("em", 2, 10_000),
    ("ex", 3, 10_000),
];

// ---- whole numbers of any size

/// Groups of nine decimal digits, the lowest first, without zeros at the end.
#[derive(Debug, Clone, PartialEq, Eq)]
struct Whole(Vec<u32>);

const GROUP: u64 = 1_000_000_000;
const GROUP_DIGITS: usize = 9;

impl Whole {
    fn of_digits(digits: &str) -> Whole {
        let bytes = digits.as_bytes();
        let group = |chunk: &[u8]| chunk.iter().fold(0, |value, digit| value * 10 + u32::from(digit - b'0'));
        Whole(bytes.rchunks(GROUP_DIGITS).map(group).collect()).trimmed()
    }

    fn trimmed(mut self) -> Whole {
        while self.0.last() == Some(&0) {
            self.0.pop();
        }
        self
    }

    fn is_zero(&self) -> bool {
        self.0.is_empty()
    }

    fn times(&self, factor: u32) -> Whole {
        let mut carry = 0;
        let mut groups = vec![];
        for &group in &self.0 {
            let product = u64::from(group) * u64::from(factor) + carry;
            groups.push((product % GROUP) as u32);
            carry = product / GROUP;
        }
        groups.extend([(carry % GROUP) as u32, (carry / GROUP) as u32]);
        Whole(groups).trimmed()
    }

    /// The quotient by ten, and what is left.
    fn tenth(&self) -> (Whole, u32) {
        let mut left = 0;
        let mut groups = self.0.clone();
        for group in groups.iter_mut().rev() {
            let value = left * GROUP + u64::from(*group);
            *group = (value / 10) as u32;
            left = value % 10;
        }
        (Whole(groups).trimmed(), left as u32)
    }

    fn compared(&self, other: &Whole) -> Ordering {
        (self.0.len(), self.0.iter().rev().collect::<Vec<_>>()).cmp(&(other.0.len(), other.0.iter().rev().collect()))
    }

    fn to_u64(&self) -> Option<u64> {
        self.0.iter().rev().try_fold(0u64, |value, &group| value.checked_mul(GROUP)?.checked_add(u64::from(group)))
    }
}

// ---- parts of a text: each gives what is left behind it

// White space and closed comments, as many as there are.
fn behind_space(text: &str) -> &str {
    let mut left = text;
    loop {
        let blank = left.strip_prefix([' ', '\t', '\r', '\n', '\u{c}']);
        let comment = left.strip_prefix("/*").and_then(|inner| inner.split_once("*/")).map(|(_, behind)| behind);
        match blank.or(comment) {
            Some(behind) => left = behind,
            None => return left,
        }
    }
}

fn digits(text: &str) -> (&str, &str) {
    text.split_at(text.find(|c: char| !c.is_ascii_digit()).unwrap_or(text.len()))
}

struct Number<'a> {
    negative: bool,
    integer: &'a str,
    fraction: &'a str,
    behind: &'a str,
}

fn number(text: &str) -> Option<Number<'_>> {
    let text = behind_space(text);
    let negative = text.starts_with('-');
    let (integer, behind) = digits(text.strip_prefix(['+', '-']).unwrap_or(text));
    if let Some(decimals) = behind.strip_prefix('.') {
        let (fraction, behind) = digits(decimals);
        if !fraction.is_empty() {
            return Some(Number { negative, integer, fraction, behind });
        }
    }
    (!integer.is_empty()).then_some(Number { negative, integer, fraction: "", behind })
}

// A backslash and what it stands for: a character, or up to six hexadecimal digits, of which only the first counts where they run to the end.
fn escape(text: &str) -> Option<(char, &str)> {
    let behind = text.strip_prefix('\\')?;
    let run = behind.chars().take(6).take_while(char::is_ascii_hexdigit).count();
    if run == 0 {
        let mut characters = behind.chars();
        return Some((characters.next().unwrap_or('\u{fffd}'), characters.as_str()));
    }
    let taken = if run == behind.len() { 1 } else { run };
    let value = u32::from_str_radix(&behind[..taken], 16).expect("hexadecimal digits");
    Some((char::from_u32(value).unwrap_or('\u{fffd}'), &behind[taken..]))
}

fn name_character(text: &str, plain: fn(char) -> bool) -> Option<(char, &str)> {
    match text.chars().next() {
        Some(c) if plain(c) => Some((c.to_ascii_lowercase(), &text[1..])),
        _ => escape(text),
    }
}

fn starts_name(c: char) -> bool {
    c.is_ascii_alphabetic() || c == '_'
}

fn continues_name(c: char) -> bool {
    starts_name(c) || c.is_ascii_digit() || c == '-'
}

fn name(text: &str) -> Option<(String, &str)> {
    let text = behind_space(text);
    let mut name = String::new();
    let mut left = text;
    if let Some(behind) = text.strip_prefix('-') {
        name.push('-');
        left = behind;
    }
    let (first, mut left) = name_character(left, starts_name)?;
    name.push(first);
    while let Some((c, behind)) = name_character(left, continues_name) {
        name.push(c);
        left = behind;
    }
    Some((name, left))
}

// ---- the value

fn length_of(value: &str) -> Length {
    let token = behind_space(value);
    let place = value.len() - token.len();
    let Some(number) = number(token.strip_prefix('+').unwrap_or(token)) else {
        return Length::None;
    };
    let unit = if number.behind.starts_with('%') { None } else { name(number.behind) };
    let behind = unit.as_ref().map_or(number.behind, |(_, behind)| behind);
    if !behind_space(behind).is_empty() {
        return Length::None;
    }
    let whole = Whole::of_digits(&[number.integer, number.fraction].concat());
    let Some((name, _)) = unit else {
        return if whole.is_zero() { Length::Of { kind: UNIT_KIND, amount: 0 } } else { Length::None };
    };
    let Some(&(_, kind, of_one)) = UNITS.iter().find(|unit| unit.0 == name) else {
        return Length::None;
    };
    let decimals = number.fraction.len();
    let limit = || (0..decimals).fold(Whole(vec![MOST]), |limit, _| limit.times(10));
    let below = number.negative && !whole.is_zero();
    if decimals > MOST_DECIMALS || below || whole.compared(&limit()) == Ordering::Greater {
        return Length::Refused { place };
    }
    let mut amount = whole.times(of_one);
    for _ in 0..decimals {
        let (tenth, left) = amount.tenth();
        assert_eq!(left, 0, "an amount that is not whole");
        amount = tenth;
    }
    Length::Of { kind, amount: amount.to_u64().expect("an amount of 64 bits") }
}

// ---- the question

/// A value: spaces, signs, a number, and a unit, each usual or odd; or one that a sheet could have.
pub fn a_height(random: &mut Random) -> Input {
    Input { texts: vec![generate::height(random)], tree: vec![] }
}

fn told(this: LengthResult) -> Option<Length> {
    match this {
        LengthResult { refusal: BAD_LENGTH, place, kind: 0, amount: 0 } => Some(Length::Refused { place }),
        LengthResult { refusal: 0, place: 0, kind: 0, amount: 0 } => Some(Length::None),
        LengthResult { refusal: 0, place: 0, kind, amount } => Some(Length::Of { kind, amount }),
        _ => None,
    }
}

pub fn ask_height(input: &Input) -> Answer {
    let value = &input.texts[0];
    let mut stores = Stores::new(value.len(), FILLING);
    let this = stores.height_length(value.as_bytes());
    let second = length_of(value);
    let clear = all_clear(&stores);
    if told(this) != Some(second) || !clear {
        return Answer::Different(format!("  a second time: {second:?}\n  this:          {this:?}, stores clear: {clear}"));
    }
    if matches!(second, Length::Refused { .. }) { Answer::SamePanic } else { Answer::Same }
}
