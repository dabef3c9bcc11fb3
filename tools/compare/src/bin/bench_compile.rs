//! Compiling three sheets: this engine's `hicsolmab_compile`, as `bash tools/staticlib.sh engine` builds it, against html2text's reading of the same sheets into its rules (`do_add_css`, once for each
//! origin), both built for release, turn by turn in one run; the times are the least of each side. Prints a table for docs/SPEED.md; tools/compare/bench-compile.sh builds and runs it.
use compare::engine::Stores;
use compare::questions::COMPILED_LIMIT;
use judge::answers::{NODE_WIDTH, Page};
use judge::css::questions::whole;
use std::hint::black_box;
use std::time::Instant;

const KILOBYTE: usize = 1024;
// Turns for each row, and how long one lasts.
const TURNS: usize = 31;
const TURN_NANOSECONDS: f64 = 8e6;

// ---- sheets

const PLAIN: &str =
    "p{color:red}\n.note,.hint{background-color:#ffeecc;color:#333}\ndiv > p.k{display:none}\n#top a{color:rgb(1,2,3)}\nli:nth-child(2n+1){white-space:pre}\n";
const STRINGS: &str = "a::before{content:\"the reading of the first channel: \"}\n[title=\"a longer title, with blanks\"]{content:'x' \"y\" 'zz'}\n";
const UNKNOWN: &str = "p{margin:1px;padding:2px 3px;border:1px solid}\n.note{font-size:small;color:red}\n";

fn repeated(rules: &str, length: usize) -> String {
    rules.repeat(length / rules.len())
}

// One rule: so many selectors, each of which gets all of so many styles.
fn product(selectors: usize, styles: usize) -> String {
    format!("{}p{{{}color:red}}", "p,".repeat(selectors - 1), "color:red;".repeat(styles - 1))
}

// ---- measuring

fn nanoseconds(times: usize, mut work: impl FnMut()) -> f64 {
    let start = Instant::now();
    for _ in 0..times {
        work();
    }
    start.elapsed().as_nanos() as f64 / times as f64
}

fn median(mut values: Vec<f64>) -> f64 {
    values.sort_by(f64::total_cmp);
    values[values.len() / 2]
}

// Of a machine in use the least time says the most.
fn least(values: impl Iterator<Item = f64>) -> f64 {
    values.fold(f64::INFINITY, f64::min)
}

fn row(name: &str, sheets: [&str; 3]) {
    let mut stores = Stores::new(sheets.iter().map(|s| s.len()).sum(), 0);
    let mut compiled = vec![0; COMPILED_LIMIT];
    let document = Page { nodes: vec![0; NODE_WIDTH], attributes: vec![], text: vec![] };
    let bytes = stores.compile(sheets.map(str::as_bytes), &mut compiled);
    assert_eq!(bytes.refusal, 0, "{name} compiles");
    assert_eq!(judge::css::questions::compile(sheets[0], sheets[1], sheets[2]).as_deref(), Some(&compiled[..bytes.bytes]), "both have the same rules");
    let mut this = || {
        black_box(stores.compile(black_box(sheets.map(str::as_bytes)), &mut compiled));
    };
    let html2text = || {
        black_box(whole(black_box(sheets), &document));
    };
    let once = nanoseconds(1, &mut this).max(nanoseconds(1, html2text));
    let times = ((TURN_NANOSECONDS / once) as usize).max(1);
    let turns: Vec<(f64, f64)> = (0..TURNS).map(|_| (nanoseconds(times, &mut this), nanoseconds(times, html2text))).collect();
    let [ours, theirs] = [least(turns.iter().map(|t| t.0)) / 1e3, least(turns.iter().map(|t| t.1)) / 1e3];
    let ratio = median(turns.iter().map(|(a, b)| a / b).collect());
    let length: usize = sheets.iter().map(|s| s.len()).sum();
    println!("| {name} | {length} | {} | {ours:.1} | {theirs:.1} | {:.2} | {ratio:.2} |", bytes.bytes, ours / theirs);
}

fn main() {
    println!("| sheets | bytes | compiled bytes | this, µs | html2text, µs | ratio | median of the turns' ratios |\n|---|---|---|---|---|---|---|");
    row("none", ["", "", ""]);
    for kilobytes in [1, 4, 16, 32] {
        row(&format!("plain rules, {kilobytes} KB"), ["", "", &repeated(PLAIN, kilobytes * KILOBYTE)]);
    }
    let plain = repeated(PLAIN, 24 * KILOBYTE);
    row("plain rules, three sheets of 24 KB", [&plain, &plain, &plain]);
    row("strings, 32 KB", ["", "", &repeated(STRINGS, 32 * KILOBYTE)]);
    row("mostly properties that are not known, 32 KB", ["", "", &repeated(UNKNOWN, 32 * KILOBYTE)]);
    // 90 of each are 65,431 compiled bytes; from 91 of each on they are over COMPILED_LIMIT, and compiling is refused.
    for (selectors, styles) in [(25, 25), (50, 50), (90, 90)] {
        row(&format!("one rule of {selectors} selectors and {styles} styles"), ["", "", &product(selectors, styles)]);
    }
}
