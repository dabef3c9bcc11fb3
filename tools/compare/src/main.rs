//! Asks html2text 0.17.4 and this engine the same questions about generated inputs, and prints how many answers were the same, and each
//! difference with the smallest input that was found. tools/compare/run.sh builds and runs it.
//!
//!     compare SEED COUNT [QUESTION]
//!     compare notice SEED COUNT        each question until its first difference: which of them noticed one
//!     compare short                    all short texts of src/short.rs
//!     compare replay FILE              asks the engine what a file of vectors asks
use compare::questions::{Answer, Input, QUESTIONS};
use compare::random::Random;
use compare::short::FRAMES;
use compare::{pages, shrink};
use std::process::ExitCode;

// Differences that are shown for each question; the rest is counted.
const SHOWN: usize = 10;
const STACK: usize = 1 << 29;

#[derive(Default)]
struct Tally {
    same: usize,
    panics: usize,
    outside: usize,
    different: usize,
}

fn show_difference(name: &str, ask: fn(&Input) -> Answer, input: Input) {
    let least = shrink::shrink(ask, input);
    println!("{name}: different on {:?}\n{}", least.texts, pages::show(&least.tree));
    if let Answer::Different(how) = ask(&least) {
        println!("{how}");
    }
}

impl Tally {
    fn add(&mut self, name: &str, ask: fn(&Input) -> Answer, input: Input) {
        match ask(&input) {
            Answer::Same => self.same += 1,
            Answer::SamePanic => self.panics += 1,
            Answer::Outside => self.outside += 1,
            Answer::Different(_) => {
                self.different += 1;
                if self.different <= SHOWN {
                    show_difference(name, ask, input);
                }
            }
        }
    }

    fn inputs(&self) -> usize {
        self.same + self.panics + self.outside + self.different
    }

    // The columns of a table's row.
    fn columns(&self) -> String {
        format!("{} | {} | {} | {} | {}", self.inputs(), self.same, self.panics, self.outside, self.different)
    }
}

const COLUMNS: &str = "inputs | same | both panic or refuse | outside | different |\n|---|---|---|---|---|---|---|";

fn exit_code(differences: usize) -> ExitCode {
    if differences == 0 { ExitCode::SUCCESS } else { ExitCode::FAILURE }
}

fn generated(seed: u64, count: usize, only: Option<&str>) -> ExitCode {
    let mut differences = 0;
    println!("| question | seed | call | {COLUMNS}---|");
    for question in QUESTIONS.iter().filter(|q| only.is_none_or(|name| name == q.name)) {
        let Some(ask) = question.ask else {
            println!("| {} | not exported by the engine yet |", question.name);
            continue;
        };
        let mut random = Random::new(seed);
        let mut tally = Tally::default();
        for _ in 0..count {
            tally.add(question.name, ask, (question.generate)(&mut random));
        }
        differences += tally.different;
        println!("| {} | {seed} | `{}` | {} |", question.name, question.call, tally.columns());
    }
    exit_code(differences)
}

// The number of inputs, counted from 1, with which a question first meets a difference.
fn first_difference(ask: fn(&Input) -> Answer, generate: fn(&mut Random) -> Input, seed: u64, count: usize) -> Option<usize> {
    let mut random = Random::new(seed);
    (1..=count).find(|_| matches!(ask(&generate(&mut random)), Answer::Different(_)))
}

// Which questions notice a difference, each with the inputs that it took. A fault may make this side leave its memory or never end: whoever starts this limits its time.
fn notice(seed: u64, count: usize) -> ExitCode {
    let mut noticed = 0;
    for question in QUESTIONS {
        let found = question.ask.and_then(|ask| first_difference(ask, question.generate, seed, count));
        if let Some(inputs) = found {
            noticed += 1;
            println!("{} {inputs}", question.name);
        }
    }
    exit_code(noticed)
}

fn short() -> ExitCode {
    let mut differences = 0;
    println!("| question | frame | {COLUMNS}");
    for frame in &FRAMES {
        let ask = QUESTIONS.iter().find(|q| q.name == frame.question).and_then(|q| q.ask).expect("a question that is there");
        let mut tally = Tally::default();
        for number in 0..frame.count() {
            tally.add(frame.question, ask, Input { texts: vec![frame.text(number)], tree: vec![] });
        }
        differences += tally.different;
        println!("| {} | `{}`..`{}` | {} |", frame.question, frame.before, frame.behind, tally.columns());
    }
    exit_code(differences)
}

fn replay(file: &str) -> ExitCode {
    let bytes = std::fs::read(file).expect("the file is read");
    let replayed = compare::vectors::replay(&bytes);
    println!("{} vectors, {} asked, {} differ", replayed.count, replayed.asked, replayed.differ);
    exit_code(replayed.differ)
}

fn work(words: &[String]) -> ExitCode {
    judge::css::questions::silence_panics();
    match &words[..] {
        [word] if word == "short" => return short(),
        [word, file] if word == "replay" => return replay(file),
        [word, seed, count] if word == "notice" => {
            if let (Ok(seed), Ok(count)) = (seed.parse(), count.parse()) {
                return notice(seed, count);
            }
        }
        [seed, count, only @ ..] => {
            if let (Ok(seed), Ok(count)) = (seed.parse(), count.parse()) {
                return generated(seed, count, only.first().map(String::as_str));
            }
        }
        _ => {}
    }
    eprintln!("compare SEED COUNT [QUESTION] | notice SEED COUNT | short | replay FILE");
    ExitCode::from(2)
}

fn main() -> ExitCode {
    let words: Vec<String> = std::env::args().skip(1).collect();
    std::thread::Builder::new().stack_size(STACK).spawn(move || work(&words)).unwrap().join().unwrap()
}
