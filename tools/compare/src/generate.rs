//! Texts to ask about: sheets, style attributes, colour attributes and heights, joined from pieces that matter to the reader, and damaged copies of them.
//! Each kind of piece has usual forms, which read, and odd ones, of which many do not; how odd a text is as a whole is chosen first.
use crate::random::Random;

// The bytes that a sheet may have.
const LONGEST: usize = 32768;

// Names that pages use too, so that selectors match.
pub const NAMES: [&str; 6] = ["p", "div", "q", "a", "b", "span"];
pub const CLASSES: [&str; 5] = ["k", "m", "foo", "a-b", "x1"];
pub const IDS: [&str; 4] = ["i", "j", "1", "a_b"];
pub const ATTRIBUTES: [&str; 8] = ["class", "id", "href", "title", "style", "color", "bgcolor", "data-x"];
pub const VALUES: [&str; 8] = ["b", "x y", "", "k", "red", "B", "é", "k m"];
// Names and classes that pages have beside those; selectors reach them by escapes.
pub const PAGE_NAMES: [&str; 4] = ["P", "é", "", "\u{fffd}"];
pub const PAGE_CLASSES: [&str; 5] = ["Foo", "é", "K", "A", "\u{fffd}"];

const NO_SPACE: [&str; 1] = [""];
const SPACES: [&str; 9] = [" ", " ", "\n", "\t", "\r\n", "\u{c}", "/**/", "/* x */", " /*a*/ "];
const ODD_SPACES: [&str; 8] = ["/*", "/*/", "/***/", "/*\n*/ /**/", "\u{b}", "\u{a0}", "/**", "*/"];

const ODD_NAMES: [&str; 39] = [
    "\\46oo", "\\50", "\\e9x", "P", "Div", "Foo", "K", "-a", "--a", "-", "_", "a1", "a-", "A_b", "\\41 ", "\\41", "a\\42 c", "\\", "\\e9 ", "\\0 ", "\\d800 ",
    "\\110000 ", "\\1234567", "\\00006b", "\\6b ", "\\k", "\\K", "\\\n", "\\é", "é", "\u{80}", "\u{81}", "a\\", "\\-", "-\\31 x", "\\64iv", "\\70",
    "\\10ffff ", "/**/p",
];

const MARKS: [&str; 34] = [
    "{", "}", "(", ")", "[", "]", ";", ":", ",", ".", "#", "@", "!", "*", ">", "+", "-", "~", "|", "=", "<", "<!--", "-->", "--", "%", "/", "\\", "\"", "'",
    "&", "::", "^", "\0", "\u{7f}",
];

const HEIGHTS: [&str; 10] = ["0", "0px", "1px", "0em", "5pt", ".5in", "12cm", "-0", "0 px", ".0ex"];
const ODD_NUMBERS: [&str; 34] = [
    "1", "2", "12", "255", "256", "007", "1.5", "5.", "0.0", "+0", "-1", "+1", "++1", "+-1", "-+1", "+ 1", "- 1", "1e3", "0PX", "5 px", "0%", "50%", "0rem",
    "-.5", "+.5", "0.", "1/**/px", "99999999999999999999", "00", "+ 0px", "+-0px", "0p\\78", "0\\", "1px2",
];
const UNITS: [&str; 9] = ["px", "em", "ex", "in", "cm", "mm", "pt", "pc", ""];

const COLOURS: [&str; 22] = [
    "red", "aqua", "black", "blue", "fuchsia", "gray", "green", "lime", "maroon", "navy", "olive", "orange", "purple", "silver", "teal", "white", "yellow",
    "RED", "#fff", "#FFF", "#a1b2c3", "rgb(1,2,3)",
];
const ODD_COLOURS: [&str; 32] = [
    "grey", "transparent", "r\\65 d", "re\\64", "#12", "#1234", "#12345g", "#\\+ff", "# fff", "#-12", "#+12", "#", "#\\30 00", "rgb(255, 255, 255)",
    "rgb(256,0,0)", "rgb(-1,0,0)", "rgb(-0,0,0)", "rgb(++1,2,003)", "rgb(+ 1,2,3)", "rgb(1,2)", "rgb(1,2,3,4)", "rgb(1 2 3)", "rgb(1%,2%,3%)", "RGB(1,2,3)",
    "rgb (1,2,3)", "rgb(1,2,3", "rgba(1,2,3)", "rgb(1.5,2,3)", "red red", "rgb(1,2,3)x", "#é1", "#\\e9 1",
];

const STRINGS: [&str; 8] = ["\"x\"", "'x'", "\"\"", "''", "\"a'b\"", "'a\"b'", "\"é\"", "\"{;}\""];
const ODD_STRINGS: [&str; 14] =
    ["\"\\41\"", "\"\\\"\"", "\"a\\\nb\"", "\"a\nb\"", "\"open", "'open", "\"\\", "\"a\\", "'}'", "\"/*\"", "\"\r\"", "'\\''", "'\\é'", "\"\n"];

const PROPERTIES: [&str; 15] = [
    "color", "background-color", "background", "height", "max-height", "overflow", "overflow-y", "display", "white-space", "content", "visibility",
    "visibility", "zz", "COLOR", "-k",
];
const ODD_PROPERTIES: [&str; 13] =
    ["x-syntax", "overflow-x", "c\\6flor", "Background", "colo\\72 ", "--x", "é", "\\", "1a", "content\\", "VISIBILITY", "visib\\69lity", "-visibility"];

const WORDS: [&str; 12] = ["none", "block", "hidden", "visible", "scroll", "auto", "normal", "pre", "pre-wrap", "nowrap", "HIDDEN", "None"];
const ODD_WORDS: [&str; 12] = ["PRE", "x-raw-dom", "url(x)", "x", "important", "!important", "hidd\\65n", "n\\6fne", "p\\72 e", "\"none\"", "none(", "5"];

const VISIBILITIES: [&str; 8] = ["hidden", "hidden", "visible", "visible", "HIDDEN", "Visible", "hidd\\65n", "collapse"];
const ODD_VISIBILITIES: [&str; 14] = [
    "", "'hidden'", "\"visible\"", "hidden visible", "hidden hidden", "hidden,", ",hidden", "hidden/**/", "hidden()", "(hidden)", "hid\\64 en", "\\48idden",
    "hidden 0", "!important",
];

const MARKED: [&str; 3] = ["!important", " !important", "! IMPORTANT"];
const ODDLY_MARKED: [&str; 6] = ["!/**/important", "!import", "! important x", "!impor\\74 ant", "!", "!important!important"];

const AT_RULES: [&str; 8] = ["@x;", "@media x{p{}}", "@x{}", "@charset \"utf-8\";", "@import url(x);", "@x(;);", "@x[;];", "@-k;"];
const ODD_AT_RULES: [&str; 12] = ["@ x;", "@/**/x;", "@x", "@", "@x{é}", "@x)", "@x{{}}", "@x{;};", "@x <!-- ; --> ;", "@1;", "@x-->;", "@x]"];

const NTH_ARGUMENTS: [&str; 20] =
    ["even", "odd", "n", "2n", "-n", "+n", "2n+1", "2n-1", "-n+3", "-2n+5", "3n+2", "0n+2", "1", "2", "-1", "+2", "0", "2n +1", " 2n", "2n "];
const ODD_NTH_ARGUMENTS: [&str; 28] = [
    "2n + 1", "2n+ 1", "2N+1", "ODD", "EVEN", "n+0", "n99999999999", "5 9999999999", "2147483647", "2147483648", "-2147483648", "2147483647n+2147483647",
    "9999999999n + 1", "9999999999n+1", "1n+9999999999", "n-2147483647", "00000000000001", "-0n-0", "+-1", "n+", "", "/**/3/**/", "2n/**/+1", "-2147483647n",
    "evenx", "odd odd", "2147483648n", "n+2147483648",
];

fn space(random: &mut Random) -> &'static str {
    if random.odd() {
        return random.choose(&ODD_SPACES);
    }
    if random.percent(70) { "" } else { random.choose(&SPACES) }
}

fn name(random: &mut Random, usual: &[&'static str]) -> String {
    if !random.odd() {
        return random.choose(usual).to_string();
    }
    format!("{}{}", random.choose(&ODD_NAMES), random.either(&NO_SPACE, &ODD_NAMES))
}

// ---- values

// A decimal whose first digit that is not zero stands around the 45th place, where an f32 becomes zero.
fn tiny_decimal(random: &mut Random) -> String {
    let digits = ["7", "8", "70064923216240853546186479164495", "70064923216240853546186479164496", "1", "0", "700649232162408535461864791644958"];
    format!(".{}{}", "0".repeat(42 + random.below(6)), random.choose(&digits))
}

fn number(random: &mut Random) -> String {
    match random.below(8) {
        0 => format!("{}{}", tiny_decimal(random), random.choose(&UNITS)),
        1 => format!("{}{}", random.below(300), random.choose(&UNITS)),
        _ => random.either(&HEIGHTS, &ODD_NUMBERS).to_string(),
    }
}

fn bracketed(random: &mut Random, depth: usize) -> String {
    let (open, close) = [("(", ")"), ("[", "]"), ("{", "}"), ("f(", ")"), ("<!--", "-->"), ("(", "]"), ("{", "")][random.below(7)];
    let inner = if depth == 0 { String::new() } else { piece(random, depth - 1) };
    format!("{open}{inner}{close}")
}

// Any piece of a value.
fn piece(random: &mut Random, depth: usize) -> String {
    match random.below(10) {
        0 => random.choose(&ODD_NUMBERS).to_string(),
        1 => random.either(&COLOURS, &ODD_COLOURS).to_string(),
        2 => random.either(&STRINGS, &ODD_STRINGS).to_string(),
        3 => random.either(&WORDS, &ODD_WORDS).to_string(),
        4 => random.choose(&MARKS).to_string(),
        5 => random.either(&SPACES, &ODD_SPACES).to_string(),
        6 => random.choose(&ODD_NAMES).to_string(),
        7 => bracketed(random, depth),
        _ if depth == 0 => String::new(),
        _ => format!("{}{}", piece(random, depth - 1), piece(random, depth - 1)),
    }
}

fn parts(random: &mut Random, part: fn(&mut Random) -> String, separators: &[&'static str]) -> String {
    let mut text = part(random);
    while random.percent(30) {
        text += random.choose(separators);
        text += &part(random);
    }
    text
}

// One to eight digits, some of them no hexadecimal ones.
fn hexadecimal(random: &mut Random) -> String {
    let length = [3, 6, 1 + random.below(8)][random.below(3)];
    (0..length).map(|_| random.either(&["0", "1", "9", "a", "f", "A", "F"], &["g", "+", "-", "\\+", "\\61 ", "\\000041", "_"])).collect()
}

fn colour(random: &mut Random) -> String {
    match random.below(6) {
        0 => format!("#{:03x}", random.below(4096)),
        5 => format!("#{}", hexadecimal(random)),
        1 => format!("rgb({},{}{},{})", random.below(300), space(random), random.below(256), random.below(256)),
        _ => random.either(&COLOURS, &ODD_COLOURS).to_string(),
    }
}

fn word(random: &mut Random) -> String {
    random.either(&WORDS, &ODD_WORDS).to_string()
}

fn string(random: &mut Random) -> String {
    random.either(&STRINGS, &ODD_STRINGS).to_string()
}

// One word mostly.
fn visibility(random: &mut Random) -> String {
    if random.percent(80) { random.choose(&VISIBILITIES).to_string() } else { random.choose(&ODD_VISIBILITIES).to_string() }
}

fn value_for(random: &mut Random, property: &str) -> String {
    if random.odd() {
        return piece(random, 3);
    }
    match property {
        "height" | "max-height" => number(random),
        "overflow" | "overflow-y" | "display" | "white-space" => parts(random, word, &[" ", " ", ",", "/"]),
        "content" => parts(random, string, &[" ", "", "/**/"]),
        "visibility" | "visib\\69lity" => visibility(random),
        "background" => parts(random, colour, &[",", ", ", " "]),
        _ => colour(random),
    }
}

// ---- declarations

fn declaration(random: &mut Random) -> String {
    let property = if random.odd() { name(random, &ODD_PROPERTIES) } else { random.choose(&PROPERTIES).to_string() };
    let value = value_for(random, &property.to_ascii_lowercase());
    let mark = if random.percent(85) { "" } else { random.either(&MARKED, &ODDLY_MARKED) };
    format!("{property}{}:{}{value}{mark}", space(random), space(random))
}

pub fn declarations(random: &mut Random) -> String {
    let mut text = space(random).to_string();
    for i in 0..random.below(5) {
        if i > 0 {
            text += random.either(&[";", "; ", ";\n  ", ";/**/"], &[";;", " ;", "", ","]);
        }
        text += &declaration(random);
    }
    text + random.either(&["", ";", " ", "; ", " ;"], &[";;", "}", "x", "\\"])
}

// Zero height with hidden overflow, in some order.
fn hiding(random: &mut Random) -> String {
    let zero = format!("{}:{}", random.choose(&["height", "max-height"]), random.choose(&["0", "0px", "-0em", "1px", ".0pt", "0 px"]));
    let hidden = format!("{}:{}", random.choose(&["overflow", "overflow-y"]), random.choose(&["hidden", "hidden", "x hidden", "auto hidden", "scroll"]));
    let (first, second) = if random.percent(50) { (zero, hidden) } else { (hidden, zero) };
    format!("{first};{second}{}", random.choose(&["", ";display:none!important", ";color:red", ";height:1px"]))
}

// How odd a text is as a whole, and whether it is damaged in the end.
fn begin(random: &mut Random) -> bool {
    let oddness = [0, 0, 2, 5, 12, 35][random.below(6)];
    random.set_oddness(oddness);
    random.percent(15)
}

pub fn style_attribute(random: &mut Random) -> String {
    let damage = begin(random);
    let text = if random.percent(10) { hiding(random) } else { declarations(random) };
    if damage { damaged(random, text) } else { text }
}

/// Declarations as in rules that contest each other's styles, or a style attribute of any kind.
pub fn contesting_attribute(random: &mut Random) -> String {
    if random.percent(60) { contesting(random) } else { style_attribute(random) }
}

pub fn color_attribute(random: &mut Random) -> String {
    let damage = begin(random);
    let bare = ["+f+f+f", "00aabb", " 00aabb", "\u{a0}00aabb", "00aabbcc", "00aab", "0 0 0 ", "ééé", "\u{2003}a1B2c3;", "00aabb)", "-10000", "12345g"];
    let text = match random.below(6) {
        0 => format!("{:06x}", random.below(1 << 24)),
        1 => random.choose(&bare).to_string(),
        2 => piece(random, 3),
        _ => colour(random),
    };
    let before = if random.percent(90) { "" } else { random.choose(&[" ", "/**/", "\u{85}", ";", "#", "+", "\u{200b}", "\u{3000}"]) };
    let behind = if random.percent(85) { "" } else { random.choose(&[" !important", ";", "}", " x", "{", ")", " ", "\u{3000}"]) };
    let text = format!("{before}{text}{behind}");
    if damage { damaged(random, text) } else { text }
}

// ---- selectors

fn attribute_component(random: &mut Random) -> String {
    let attribute = name(random, &ATTRIBUTES);
    if random.odd() {
        let rests = ["=", "", "~=b]", " ]", "=b ]", "= \"b\"]", "= b]", "=1]", "=]", "=\"b\" ]", "=-b]", "=\\62]", "='"];
        return format!("[{}{attribute}{}", space(random), random.choose(&rests));
    }
    match random.below(5) {
        0..=1 => format!("[{attribute}]"),
        2 => format!("[{attribute}=\"{}\"]", random.choose(&VALUES)),
        3 => format!("[{attribute}={}]", name(random, &CLASSES)),
        _ => format!("[{attribute}={}]", string(random)),
    }
}

fn nth_component(random: &mut Random) -> String {
    if random.percent(50) {
        return format!(":nth-child({})", random.either(&NTH_ARGUMENTS, &ODD_NTH_ARGUMENTS));
    }
    let (a_sign, b_sign) = (random.choose(&["", "-", "+"]), random.choose(&["+", "-"]));
    format!(":nth-child({a_sign}{}n{b_sign}{})", random.below(4), random.below(6))
}

fn component(random: &mut Random) -> String {
    let odd = [":NTH-CHILD(odd)", ": nth-child(2)", ":nth-child (1)", ":hover", ":nth-child(1", ":nth-child", ". k", "# i", ":before", "[a]b", "+", "|"];
    match random.below(10) {
        _ if random.odd() => random.choose(&odd).to_string(),
        0..=2 => format!(".{}", name(random, &CLASSES)),
        3..=4 => name(random, &NAMES),
        5 => format!("#{}", name(random, &IDS)),
        6 => attribute_component(random),
        7..=8 => nth_component(random),
        _ => "*".to_string(),
    }
}

pub fn selector(random: &mut Random) -> String {
    let mut text = if random.odd() { random.choose(&[" ", ">", "> ", "+"]) } else { "" }.to_string();
    for i in 0..1 + random.below(4) {
        if i > 0 {
            text += random.either(&["", "", " ", " ", " > ", ">", "/**/"], &[" /**/ ", ">>", "+", " * ", "~"]);
        }
        text += &component(random);
    }
    if random.percent(10) {
        text += random.either(&["::before", "::after", " ::before"], &["::BEFORE", "::before ", ":before", "::first", ">", " "]);
    }
    text
}

fn selectors(random: &mut Random) -> String {
    let mut text = selector(random);
    while random.percent(20) {
        text += random.either(&[",", ", ", ",/**/"], &[" ,", ",,"]);
        text += &selector(random);
    }
    text
}

// ---- sheets

fn rule(random: &mut Random) -> String {
    let head = if random.odd() { String::new() } else { selectors(random) };
    let body = match random.below(8) {
        0 => hiding(random),
        1 => "color:red".to_string(),
        2 => String::new(),
        _ => declarations(random),
    };
    format!("{head}{}{{{body}}}", space(random))
}

fn statement(random: &mut Random) -> String {
    if random.percent(8) { random.either(&AT_RULES, &ODD_AT_RULES).to_string() } else { rule(random) }
}

fn soup(random: &mut Random) -> String {
    (0..random.below(20)).map(|_| piece(random, 2)).collect()
}

// One piece again and again, up to the longest sheet that is accepted.
fn long(random: &mut Random) -> String {
    let unit = match random.below(6) {
        0 => statement(random),
        1 => declaration(random) + ";",
        2 => selector(random) + ",",
        3 => component(random),
        4 => random.either(&SPACES, &ODD_SPACES).to_string(),
        _ => piece(random, 2),
    };
    let before = random.choose(&["", "p{", "p{a:", "p{}", "@x ", "p{color:red}/*", "p[a=\"", "p{content:'"]);
    let behind = random.choose(&["", "}", "p{}", "\"]{}", "'}"]);
    let room = LONGEST - before.len() - behind.len();
    let copies = if unit.is_empty() { 0 } else { random.below(room / unit.len() + 1) };
    format!("{before}{}{behind}", unit.repeat(copies))
}

pub fn sheet(random: &mut Random) -> String {
    let damage = begin(random);
    if random.percent(5) {
        return soup(random);
    }
    if random.below(400) == 0 {
        return long(random);
    }
    let count = if random.percent(3) { 40 } else { 1 + random.below(5) };
    let mut text = space(random).to_string();
    for _ in 0..count {
        text += &statement(random);
        text += space(random);
    }
    if damage { damaged(random, text) } else { text }
}

/// A sheet of selectors without declarations, to be matched.
pub fn matching_sheet(random: &mut Random) -> String {
    begin(random);
    (0..1 + random.below(5)).map(|_| format!("{}{{}}", selector(random))).collect()
}

/// A short sheet whose rules mostly read, match and have styles.
pub fn styling_sheet(random: &mut Random) -> String {
    let damage = begin(random);
    let heads = [
        "p", "div", "q", "a", "b", "span", ".k", ".m", ".foo", "#i", "#j", "*", "p.k", "div p", "div > *", ":nth-child(odd)", "p::before", ".k::after",
        "*::before",
    ];
    let one = |random: &mut Random| {
        let head = if random.percent(75) { random.choose(&heads).to_string() } else { selectors(random) };
        let body = if random.percent(60) { declaration(random) } else { declarations(random) };
        format!("{head}{{{body}}}")
    };
    let text: String = (0..random.below(4)).map(|_| one(random)).collect();
    if damage { damaged(random, text) } else { text }
}

// Declarations of which many are important, and many of the same property, so that they stand against each other.
fn contesting(random: &mut Random) -> String {
    let properties =
        ["color", "color", "background-color", "background", "display", "white-space", "content", "content", "height", "overflow", "visibility", "visibility"];
    let one = |random: &mut Random| {
        let property = random.choose(&properties);
        let value = match property {
            "display" => "none".to_string(),
            "white-space" => random.choose(&["normal", "pre", "pre-wrap"]).to_string(),
            "height" => random.choose(&["0", "1px"]).to_string(),
            "overflow" => "hidden".to_string(),
            "visibility" => random.choose(&["visible", "hidden", "hidden", "collapse", "hidden visible"]).to_string(),
            "content" => format!("\"{}\"", random.choose(&["", "x", "yz", "é", "long enough to be seen"])),
            _ => format!("#{:03x}", random.below(4096)),
        };
        format!("{property}:{value}{}", if random.percent(30) { "!important" } else { "" })
    };
    (0..1 + random.below(4)).map(|_| one(random)).collect::<Vec<String>>().join(";")
}

// A selector that many elements match, of some specificity.
fn matching_selector(random: &mut Random) -> String {
    if random.percent(25) {
        return selector(random);
    }
    let simple = |random: &mut Random| match random.below(6) {
        0..=1 => random.choose(&NAMES).to_string(),
        2..=3 => format!(".{}", random.choose(&CLASSES)),
        4 => format!("#{}", random.choose(&IDS)),
        _ => "*".to_string(),
    };
    let mut text = simple(random);
    for _ in 0..[0, 0, 0, 0, 1, 2][random.below(6)] {
        text += random.choose(&[" ", " ", " > "]);
        text += &simple(random);
    }
    if random.percent(1) {
        // So often that its count outweighs or passes something.
        text += &random.choose(&[".k", "[class]", ":nth-child(n)"]).repeat([10, 11, 255, 256, 300][random.below(5)]);
    }
    let more = ["", "", "", "", ":nth-child(odd)", ":nth-child(-n+3)", "[class]", "[id=i]", "::before", "::before", "::after"];
    text + random.choose(&more)
}

/// A sheet whose rules have groups of selectors and contest each other's styles, or one as `sheet` and `styling_sheet` give it.
pub fn page_sheet(random: &mut Random) -> String {
    match random.below(10) {
        0 => return sheet(random),
        1 | 2 => return styling_sheet(random),
        3 => return String::new(),
        _ => {}
    }
    let damage = begin(random) && random.percent(20);
    let oddness = [0, 0, 0, 0, 1, 5][random.below(6)];
    random.set_oddness(oddness);
    let rules = if random.percent(4) { 50 } else { random.below(9) };
    let mut text = String::new();
    for _ in 0..rules {
        let heads: Vec<String> = (0..[1, 1, 1, 2, 3, 6][random.below(6)]).map(|_| matching_selector(random)).collect();
        let body = match random.below(10) {
            0 => hiding(random),
            1 => declarations(random),
            2 => declaration(random),
            _ => contesting(random),
        };
        text += &format!("{}{{{body}}}", heads.join(","));
    }
    if random.percent(1) {
        text += random.choose(&["[a=", ":nth-child(2147483648){}"]);
    }
    if damage { damaged(random, text) } else { text }
}

// ---- heights

const LENGTH_SIGNS: [&str; 12] = ["", "", "", "", "", "", "+", "-", "+ ", "+-", "++", "+/**/"];
const WHOLE_NUMBERS: [&str; 16] =
    ["0", "1", "2", "9", "12", "00", "007", "999", "9999", "10000", "10001", "010000", "99999", "00000000000000000001", "99999999999999999999", ""];
const DECIMALS: [&str; 18] =
    ["", "", "", "", ".0", ".5", ".25", ".125", ".0001", ".9999", ".0000", ".00000", ".12345", ".00001", ".", "..5", ".5.5", ".000000000000000001"];
const LENGTH_UNITS: [&str; 34] = [
    "px", "px", "in", "cm", "mm", "pt", "pc", "em", "ex", "PX", "Em", "iN", "", "", "%", "rem", "p", "pxx", "vh", "e3px", "-px", "\\70x", "\\50x", "\\000070c",
    "p\\78", "p\\78 ", "e\\6d", "\\65 x", "\\p\\x", "px\\", "é", "x", "1px", "_",
];
const BEHIND_LENGTHS: [&str; 14] = ["", "", "", "", "", "", " ", "/**/", "/*", ";", "!important", " 1px", ")", "é"];

/// A height's value.
pub fn height(random: &mut Random) -> String {
    let damage = begin(random);
    let space = |random: &mut Random| if random.percent(70) { String::new() } else { random.either(&SPACES, &ODD_SPACES).to_string() };
    let mut text = space(random) + random.choose(&LENGTH_SIGNS) + &space(random) + random.choose(&WHOLE_NUMBERS);
    if random.percent(2) {
        text += &random.choose(&["0", "9"]).repeat([50, 500, 5000][random.below(3)]);
    }
    text += random.choose(&DECIMALS);
    if random.percent(20) {
        text += &space(random);
    }
    text += random.choose(&LENGTH_UNITS);
    text += random.choose(&BEHIND_LENGTHS);
    if damage { damaged(random, text) } else { text }
}

// ---- damage

fn boundary(random: &mut Random, text: &str) -> usize {
    let mut place = random.below(text.len() + 1);
    while !text.is_char_boundary(place) {
        place -= 1;
    }
    place
}

fn damaged_once(random: &mut Random, text: String) -> String {
    let (one, other) = (boundary(random, &text), boundary(random, &text));
    let start = one.min(other);
    let reach = one.max(other).min(start + 12);
    let end = (reach..=text.len()).find(|&e| text.is_char_boundary(e)).unwrap_or(text.len());
    match random.below(5) {
        0 => format!("{}{}", &text[..start], &text[end..]),
        1 => format!("{}{}{}", &text[..start], piece(random, 1), &text[start..]),
        2 => format!("{}{}", &text[..end], &text[start..]),
        3 => text[..one].to_string(),
        _ => format!("{}{}{}", &text[..start], random.choose(&MARKS), &text[end..]),
    }
}

fn damaged(random: &mut Random, text: String) -> String {
    (0..1 + random.below(3)).fold(text, |t, _| damaged_once(random, t))
}
