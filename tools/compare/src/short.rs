//! Short texts, all of them: every sequence of a few pieces, in a frame that brings the reader to them.

pub struct Frame {
    /// The question that is asked.
    pub question: &'static str,
    pub before: &'static str,
    pub behind: &'static str,
    pub pieces: &'static [&'static str],
    /// The most pieces in a sequence.
    pub length: usize,
}

const SHEET: [&str; 26] =
    ["p", " ", "{", "}", ":", ";", ",", ".", "#", "[", "]", "=", "\"", "*", ">", "/*", "*/", "\\", "1", "-", "+", "@", "(", ")", "é", "!"];
const VALUE: [&str; 24] =
    ["a", "red", " ", "{", "}", ";", ",", "#", "f0", "[", "]", "\"", "'", "/", "*", "\\", "0", "-", "+", ".", "%", "(", ")", "!important"];
// What opens and closes a comment of HTML, and parts of both.
const MARKS: [&str; 10] = ["<", "!", "-", ">", "a", " ", ";", "(", ")", "1"];
const HEIGHT: [&str; 10] = ["0", "1", ".", "+", "-", " ", "px", "e", "/**/", "%"];
const NTH: [&str; 11] = ["0", "2", "2147483647", "8", "n", "+", "-", " ", "even", "odd", ")"];
const ATTRIBUTE: [&str; 10] = ["a", "=", "\"", "'", "]", " ", "\\", "-", "1", "\n"];
const SELECTOR: [&str; 13] = ["p", ".", "#", "*", ">", " ", "::before", ":nth-child(1)", "[a]", ",", "/**/", "-", "1"];
const ESCAPE: [&str; 9] = ["\\", "4", "1", "a", "g", "d800", " ", "\n", "é"];
const RGB: [&str; 8] = ["1", "255", "6", ",", " ", "+", "-", ")"];
const COLOUR: [&str; 12] = ["0", "a", "g", "#", "+", " ", "\u{a0}", ";", "}", "(", "!important", "é"];
const VISIBILITY: [&str; 14] = ["hidden", "visible", "HIDDEN", "x", " ", ",", ";", "(", ")", "'", "\\", "/**/", "!", "important"];
const DECLARATIONS: [&str; 10] = ["a", ":", ";", " ", "color:red", "/**/", "}", "\\", "!important", "1"];

pub const FRAMES: [Frame; 23] = [
    Frame { question: "sheet", before: "", behind: "", pieces: &SHEET, length: 4 },
    Frame { question: "sheet", before: "p{color:red}", behind: "q{}", pieces: &SHEET, length: 3 },
    Frame { question: "sheet", before: "p{", behind: "}q{}", pieces: &DECLARATIONS, length: 5 },
    Frame { question: "sheet", before: "p{color:", behind: "}q{}", pieces: &VALUE, length: 4 },
    Frame { question: "sheet", before: "p{a:", behind: ";b:c}q{}", pieces: &MARKS, length: 5 },
    Frame { question: "sheet", before: "p{background:", behind: "}", pieces: &VALUE, length: 3 },
    Frame { question: "sheet", before: "p{content:", behind: "}", pieces: &VALUE, length: 3 },
    Frame { question: "sheet", before: "p{visibility:", behind: "}q{}", pieces: &VISIBILITY, length: 4 },
    Frame { question: "sheet", before: "p{height:", behind: "}", pieces: &HEIGHT, length: 5 },
    Frame { question: "sheet", before: "p{color:rgb(", behind: ")}", pieces: &RGB, length: 6 },
    Frame { question: "sheet", before: ":nth-child(", behind: "){}", pieces: &NTH, length: 5 },
    Frame { question: "sheet", before: "[a", behind: "{}", pieces: &ATTRIBUTE, length: 5 },
    Frame { question: "sheet", before: ":nth-child(", behind: "", pieces: &NTH, length: 4 },
    Frame { question: "sheet", before: "p{}[a", behind: "", pieces: &ATTRIBUTE, length: 5 },
    Frame { question: "sheet", before: "a", behind: "{}", pieces: &SELECTOR, length: 5 },
    Frame { question: "sheet", before: "", behind: "{}", pieces: &SELECTOR, length: 5 },
    Frame { question: "sheet", before: "@x", behind: "q{}", pieces: &VALUE, length: 3 },
    Frame { question: "sheet", before: "", behind: "", pieces: &ESCAPE, length: 5 },
    Frame { question: "sheet", before: "p{color:\\", behind: "}", pieces: &ESCAPE, length: 5 },
    Frame { question: "style", before: "", behind: "", pieces: &DECLARATIONS, length: 5 },
    Frame { question: "style", before: "content:", behind: "", pieces: &VALUE, length: 3 },
    Frame { question: "style", before: "visibility:", behind: ";color:red", pieces: &VISIBILITY, length: 3 },
    Frame { question: "colour", before: "", behind: "", pieces: &COLOUR, length: 5 },
];

impl Frame {
    /// How many sequences there are, shorter ones too.
    pub fn count(&self) -> usize {
        (0..=self.length).map(|n| self.pieces.len().pow(n as u32)).sum()
    }

    /// The sequence of a number, in its frame.
    pub fn text(&self, number: usize) -> String {
        let (mut rest, mut length) = (number, 0);
        while rest >= self.pieces.len().pow(length) {
            rest -= self.pieces.len().pow(length);
            length += 1;
        }
        let mut text = self.before.to_string();
        for _ in 0..length {
            text += self.pieces[rest % self.pieces.len()];
            rest /= self.pieces.len();
        }
        text + self.behind
    }
}
