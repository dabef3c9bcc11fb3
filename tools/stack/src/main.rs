//! Measures what each exported call takes of the stack at most, on inputs that are as long and as deep as they may be. tools/stack/run.sh builds and runs it.
//!
//! A call runs on a stack of its own, which ends in a page that can be neither read nor written. First that stack is large and filled with one byte, so that the lowest byte that
//! has changed tells what the call took. Then the input that took the most is asked again in two processes: on a stack of exactly so many bytes, where the call must answer, and on one
//! that is 16 bytes shorter, where it must run into the page.
mod inputs;
mod stack;

use hicsolmab::calls::{self, Stores};
use hicsolmab::layout::{ATTRIBUTE_LIMIT, ATTRIBUTE_WIDTH, COMPILED_LIMIT, NODE_LIMIT, NODE_WIDTH, SHEET_LIMIT, STYLE_ROW_WIDTH, TEXT_LIMIT};
use hicsolmab::{Page, Settings, Sheets, lengths};
use inputs::Input;
use stack::Stack;
use std::os::unix::process::ExitStatusExt;
use std::process::{Command, ExitCode, ExitStatus};

// Stack pointers are multiples of so many bytes where a function is called.
const ALIGNMENT: usize = 16;
// More than any call takes; where that is wrong the program stops in the guard page.
const LARGE: usize = 1 << 20;
// The signal of an access that is not allowed.
const SEGMENTATION_FAULT: i32 = 11;

/// An exported function, by the name that the header gives it.
#[derive(Clone, Copy)]
struct Call {
    name: &'static str,
    // Whether it reads a page; without one it is asked once for each sheet.
    takes_page: bool,
    // Whether it reads sheets.
    takes_sheets: bool,
    ask: fn(&Input, &mut Lent) -> u32,
}

const CALLS: [Call; 7] = [
    Call { name: "hicsolmab_read_sheet", takes_page: false, takes_sheets: true, ask: read_sheet },
    Call { name: "hicsolmab_height_length", takes_page: false, takes_sheets: true, ask: height_length },
    Call { name: "hicsolmab_compile", takes_page: false, takes_sheets: true, ask: compile },
    Call { name: "hicsolmab_check_page", takes_page: true, takes_sheets: false, ask: check_page },
    Call { name: "hicsolmab_style", takes_page: true, takes_sheets: true, ask: style },
    Call { name: "hicsolmab_style_book", takes_page: true, takes_sheets: true, ask: style_book },
    Call { name: "hicsolmab_run", takes_page: true, takes_sheets: true, ask: run },
];

// ---- what a call is lent, all of it long enough for the limits

struct Lent {
    rules: Vec<u32>,
    tokens: Vec<u32>,
    brackets: Vec<u8>,
    texts: Vec<u8>,
    out: Vec<u32>,
    rows: Vec<u32>,
    state: Vec<u8>,
    bytes: Vec<u8>,
    /// The compiled sheet of a run, made beforehand.
    compiled: Vec<u8>,
}

impl Lent {
    fn new() -> Lent {
        let bytes = lengths::style_bytes(SHEET_LIMIT, SHEET_LIMIT, SHEET_LIMIT, ATTRIBUTE_LIMIT * ATTRIBUTE_WIDTH, TEXT_LIMIT);
        Lent {
            rules: vec![0; lengths::rules(bytes)],
            tokens: vec![0; lengths::tokens(bytes)],
            brackets: vec![0; lengths::brackets(bytes)],
            texts: vec![0; lengths::texts(bytes)],
            out: vec![0; STYLE_ROW_WIDTH],
            rows: vec![0; lengths::rows(NODE_LIMIT * NODE_WIDTH)],
            state: vec![0; lengths::state(COMPILED_LIMIT)],
            bytes: vec![0; COMPILED_LIMIT],
            compiled: vec![],
        }
    }

    // The stores that so many bytes of text want.
    fn stores(&mut self, bytes: usize) -> Stores<'_> {
        Stores {
            rules: &mut self.rules[..lengths::rules(bytes)],
            tokens: &mut self.tokens[..lengths::tokens(bytes)],
            brackets: &mut self.brackets[..lengths::brackets(bytes)],
            texts: &mut self.texts[..lengths::texts(bytes)],
        }
    }
}

fn sheets(input: &Input) -> Sheets<'_> {
    Sheets { agent: b"", user: b"", author: &input.sheet }
}

fn read_sheet(input: &Input, lent: &mut Lent) -> u32 {
    calls::read_sheet(&input.sheet, lent.stores(input.sheet.len())).refusal
}

// The sheet is taken for a height's value.
fn height_length(input: &Input, lent: &mut Lent) -> u32 {
    calls::height_length(&input.sheet, lent.stores(input.sheet.len())).refusal
}

fn compile(input: &Input, lent: &mut Lent) -> u32 {
    let mut compiled = std::mem::take(&mut lent.bytes);
    let result = calls::compile(sheets(input), &mut compiled, lent.stores(input.sheet.len()));
    lent.bytes = compiled;
    result.refusal
}

fn check_page(input: &Input, _: &mut Lent) -> u32 {
    calls::check_page(input.page.rows()).refusal
}

fn style_bytes(input: &Input) -> usize {
    let page = input.page.rows();
    lengths::style_bytes(0, 0, input.sheet.len(), page.attributes.len(), page.text.len())
}

// The deepest row is asked for, which is the last.
fn style(input: &Input, lent: &mut Lent) -> u32 {
    let mut out = std::mem::take(&mut lent.out);
    let refusal = calls::style(sheets(input), input.page.rows(), input.row, Settings::default(), &mut out, lent.stores(style_bytes(input))).refusal;
    lent.out = out;
    refusal
}

fn style_book(input: &Input, lent: &mut Lent) -> u32 {
    let mut out = std::mem::take(&mut lent.out);
    let refusal = calls::style_book(sheets(input), input.page.rows(), input.row, Settings::default(), &mut out, lent.stores(style_bytes(input))).refusal;
    lent.out = out;
    refusal
}

fn run(input: &Input, lent: &mut Lent) -> u32 {
    let page = input.page.rows();
    let (mut rows, mut state, compiled) = (std::mem::take(&mut lent.rows), std::mem::take(&mut lent.state), std::mem::take(&mut lent.compiled));
    let (rows_length, state_length) = (lengths::rows(page.nodes.len()), lengths::state(compiled.len()));
    let stores = lent.stores(lengths::run_bytes(page.attributes.len(), page.text.len()));
    let refusal = calls::run(&compiled, page, Settings::default(), &mut rows[..rows_length], &mut state[..state_length], stores).refusal;
    (lent.rows, lent.state, lent.compiled) = (rows, state, compiled);
    refusal
}

// The compiled sheet of the input, on the stack that is there; none where it is refused.
fn prepare(call: &Call, input: &Input, lent: &mut Lent) -> bool {
    if call.name != "hicsolmab_run" {
        return true;
    }
    let compiled = Sheets { ..sheets(input) }.compile();
    lent.compiled = compiled.as_ref().map_or(vec![], |compiled| compiled.as_bytes().to_vec());
    compiled.is_ok()
}

// ---- measuring

// The bytes of the stack that a call takes.
fn taken(call: &Call, input: &Input, lent: &mut Lent, stack: &mut Stack) -> usize {
    stack.paint();
    stack.run(|| {
        std::hint::black_box((call.ask)(input, lent));
    });
    stack.painted_over()
}

struct Most {
    bytes: usize,
    input: usize,
}

fn most(call: &Call, inputs: &[Input]) -> Most {
    let (mut lent, mut stack) = (Lent::new(), Stack::new(LARGE));
    let mut most = Most { bytes: 0, input: 0 };
    for (i, input) in inputs.iter().enumerate() {
        let asked = (call.takes_page || input.page_name.is_empty()) && (call.takes_sheets || input.sheet_name.is_empty()) && prepare(call, input, &mut lent);
        if asked {
            let bytes = taken(call, input, &mut lent, &mut stack);
            if bytes > most.bytes {
                most = Most { bytes, input: i };
            }
        }
    }
    most
}

// In a process of its own: a call on a stack of so many bytes.
fn child(call: usize, input: usize, bytes: usize) -> ExitCode {
    let (call, input) = (&CALLS[call], &inputs::all()[input]);
    let mut lent = Lent::new();
    assert!(prepare(call, input, &mut lent), "a sheet that compiles");
    let mut stack = Stack::new(bytes);
    stack.run(|| {
        std::hint::black_box((call.ask)(input, &mut lent));
    });
    ExitCode::SUCCESS
}

fn in_child(call: usize, input: usize, bytes: usize) -> ExitStatus {
    let this = std::env::current_exe().expect("the program's own path");
    Command::new(this).args([call, input, bytes].map(|n| n.to_string())).status().expect("a child")
}

fn measure(number: usize, inputs: &[Input]) -> bool {
    let call = &CALLS[number];
    let most = most(call, inputs);
    let least = most.bytes.next_multiple_of(ALIGNMENT);
    let survives = in_child(number, most.input, least).success();
    let dies = in_child(number, most.input, least - ALIGNMENT).signal() == Some(SEGMENTATION_FAULT);
    println!("| `{}` | {least} | {} | {} |", call.name, inputs[most.input].name(), if survives && dies { "yes" } else { "NO" });
    survives && dies
}

// ---- memory

fn bytes_of_stores(bytes: usize) -> usize {
    4 * (lengths::rules(bytes) + lengths::tokens(bytes)) + lengths::brackets(bytes) + lengths::texts(bytes)
}

// The bytes of what a call writes to, of the least lengths, at the limits.
fn table_of_memory() {
    let page = (ATTRIBUTE_LIMIT * ATTRIBUTE_WIDTH, TEXT_LIMIT);
    let run = bytes_of_stores(lengths::run_bytes(page.0, page.1)) + 4 * lengths::rows(NODE_LIMIT * NODE_WIDTH) + lengths::state(COMPILED_LIMIT);
    let style = bytes_of_stores(lengths::style_bytes(SHEET_LIMIT, SHEET_LIMIT, SHEET_LIMIT, page.0, page.1)) + 4 * STYLE_ROW_WIDTH;
    println!("\n| call | bytes that it is lent to write, at the limits |\n|---|---|");
    println!("| `hicsolmab_read_sheet` | {} |", bytes_of_stores(lengths::read_sheet_bytes(SHEET_LIMIT)));
    println!("| `hicsolmab_height_length` | {} |", bytes_of_stores(lengths::height_length_bytes(SHEET_LIMIT)));
    println!("| `hicsolmab_compile` | {} |", bytes_of_stores(lengths::compile_bytes(SHEET_LIMIT, SHEET_LIMIT, SHEET_LIMIT)) + COMPILED_LIMIT);
    println!("| `hicsolmab_check_page` | 0 |\n| `hicsolmab_style`, `hicsolmab_style_book` | {style} |\n| `hicsolmab_run` | {run} |");
}

fn main() -> ExitCode {
    let words: Vec<usize> = std::env::args().skip(1).map(|word| word.parse().expect("a number")).collect();
    if let [call, input, bytes] = words[..] {
        return child(call, input, bytes);
    }
    let inputs = inputs::all();
    println!("| call | bytes of the stack | on | ends 16 bytes below |\n|---|---|---|---|");
    let confirmed = (0..CALLS.len()).filter(|&call| measure(call, &inputs)).count();
    table_of_memory();
    if confirmed == CALLS.len() { ExitCode::SUCCESS } else { ExitCode::FAILURE }
}

/// A page that is built by opening elements.
fn page_of(build: impl FnOnce(&mut Page)) -> Page {
    let mut page = Page::new();
    build(&mut page);
    page
}
