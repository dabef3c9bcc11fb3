//! Chooses the vectors: of generated inputs those that meet something new in html2text, as the counters of `-C instrument-coverage` in html2text's
//! own text show it. tools/vectors.sh builds and runs it.
//!
//!     choose_vectors SEED FOLDER
use compare::questions::{Answer, Input, QUESTIONS, Question};
use compare::random::Random;
use compare::vectors::{Writer, has_visibility, records};
use std::collections::HashSet;
use std::hash::{DefaultHasher, Hash, Hasher};

// Inputs that are looked at for each question, and the longest that is taken.
const LOOKED_AT: usize = 60_000;
const LONGEST: usize = 200;

// The files, and the questions whose vectors they hold.
const FILES: [(&str, &[&str]); 3] =
    [("vectors", &["sheet", "style", "colour", "matches"]), ("compile_vectors", &["compile"]), ("style_vectors", &["computed"])];

// How many are taken for each question, unless more are needed to meet everything.
fn wanted(question: &str) -> usize {
    match question {
        "sheet" => 1400,
        "style" => 500,
        "colour" => 350,
        "matches" => 500,
        _ => 400,
    }
}

// The counters of the instrumented crate.
unsafe extern "C" {
    fn __llvm_profile_begin_counters() -> *const u64;
    fn __llvm_profile_end_counters() -> *const u64;
    fn __llvm_profile_reset_counters();
    fn __llvm_profile_initialize_file();
    fn __llvm_profile_write_file() -> i32;
}

// The counters that a question leaves above zero, each with the size of its count.
fn met(question: &Question, input: &Input) -> Vec<(usize, u32)> {
    // Sound: the runtime of the coverage build owns these, and one thread runs.
    let counters = unsafe {
        __llvm_profile_reset_counters();
        records(question.name, input);
        let begin = __llvm_profile_begin_counters();
        std::slice::from_raw_parts(begin, __llvm_profile_end_counters().offset_from(begin) as usize)
    };
    let size = |n: u64| u64::BITS - n.leading_zeros();
    counters.iter().enumerate().filter(|&(_, &n)| n > 0).map(|(i, &n)| (i, size(n))).collect()
}

fn hash(met: &[(usize, u32)]) -> u64 {
    let mut hasher = DefaultHasher::new();
    met.iter().map(|&(i, _)| i).collect::<Vec<usize>>().hash(&mut hasher);
    hasher.finish()
}

fn length(input: &Input) -> usize {
    input.texts.iter().map(String::len).sum::<usize>() + 8 * input.tree.len()
}

// First, shortest first, each input that meets a counter, or a size of its count, that none before it met; then each that meets a set of
// counters that none before it met.
fn choose(question: &Question, seed: u64) -> Vec<Input> {
    let mut random = Random::new(seed);
    let mut inputs: Vec<Input> = (0..LOOKED_AT).map(|_| (question.generate)(&mut random)).collect();
    let outside = |i: &Input| question.ask.is_some_and(|ask| matches!(ask(i), Answer::Outside));
    inputs.retain(|i| length(i) <= LONGEST && !outside(i) && !has_visibility(i));
    let mut by_length: Vec<usize> = (0..inputs.len()).collect();
    by_length.sort_by_key(|&i| length(&inputs[i]));
    let (mut counters, mut sets, mut taken) = (HashSet::new(), HashSet::new(), vec![]);
    for &i in &by_length {
        let met = met(question, &inputs[i]);
        if met.iter().any(|m| !counters.contains(m)) {
            sets.insert(hash(&met));
            counters.extend(met);
            taken.push(i);
        }
    }
    let needed = taken.len();
    for i in 0..inputs.len() {
        if taken.len() >= wanted(question.name) {
            break;
        }
        if sets.insert(hash(&met(question, &inputs[i]))) {
            taken.push(i);
        }
    }
    println!("{}: {needed} inputs meet all that {} of up to {LONGEST} bytes meet; {} taken", question.name, inputs.len(), taken.len());
    taken.into_iter().map(|i| inputs[i].clone()).collect()
}

fn write(file: &str, records: Vec<Vec<u8>>) {
    let mut out = Writer::default();
    out.number(records.len() as u32);
    records.iter().for_each(|r| out.bytes.extend_from_slice(r));
    std::fs::write(file, &out.bytes).expect("the file is written");
    println!("{file}: {} vectors, {} bytes", records.len(), out.bytes.len());
}

// Writes the profile of the chosen inputs, and of nothing else, to LLVM_PROFILE_FILE.
fn leave_profile(chosen: &[(&Question, Input)]) {
    unsafe { __llvm_profile_reset_counters() };
    for (question, input) in chosen {
        records(question.name, input);
    }
    unsafe {
        __llvm_profile_initialize_file();
        assert_eq!(__llvm_profile_write_file(), 0, "the profile is written");
    }
}

fn main() {
    judge::css::questions::silence_panics();
    let words: Vec<String> = std::env::args().skip(1).collect();
    let [seed, folder] = &words[..] else { panic!("choose_vectors SEED FOLDER") };
    let seed: u64 = seed.parse().expect("a seed");
    let mut chosen = vec![];
    for (file, questions) in FILES {
        let mut found = vec![];
        for question in QUESTIONS.iter().filter(|q| questions.contains(&q.name)) {
            let inputs = choose(question, seed);
            found.extend(inputs.iter().flat_map(|i| records(question.name, i)));
            chosen.extend(inputs.into_iter().map(|i| (question, i)));
        }
        write(&format!("{folder}/{file}"), found);
    }
    leave_profile(&chosen);
}
