//! Reading a sheet: this engine's `read_sheet`, as `bash tools/staticlib.sh engine` builds it, against html2text's `parse_stylesheet`, both built for release,
//! on the same sheets, turn by turn in one run. Prints tables for docs/SPEED.md; tools/bench-read/run.sh builds and runs it.
use compare::engine::Stores;
use judge::css::questions::count_rules;
use std::hint::black_box;
use std::time::Instant;

const KILOBYTE: usize = 1024;
const LENGTHS: [usize; 4] = [KILOBYTE, 4 * KILOBYTE, 16 * KILOBYTE, 32 * KILOBYTE];
// Turns for each sheet, and bytes that are read in one turn, so that a turn is long enough to be timed.
const TURNS: usize = 41;
const TURN_BYTES: usize = 256 * KILOBYTE;
// The same for unclosed comments, whose bytes take a thousand times as long.
const UNCLOSED_TURNS: usize = 9;
const UNCLOSED_TURN_BYTES: usize = 32 * KILOBYTE;

// ---- sheets

const PLAIN: &str =
    "p{color:red}\n.note,.hint{background-color:#ffeecc;color:#333}\ndiv > p.k{display:none}\n#top a{color:rgb(1,2,3)}\nli:nth-child(2n+1){white-space:pre}\n";
const COMMENTS: &str = "/* The colours of the first channel, as they are printed on the instrument. */\np/**/{/* one */color:red;/* two, which is longer than one */}\n/* ---- */\n";
const STRINGS: &str = "a::before{content:\"the reading of the first channel: \"}\n[title=\"a longer title, with blanks\"]{content:'x' \"y\" 'zz'}\n";
const ESCAPES: &str = ".\\00003123\\:a{c\\00006flor:r\\000065d}\n#\\000041bc\\{{color:\\000072ed;\\00007az:\\01f600x}\n\\64iv\\.k > \\0000e9{\\7a:\\\\}\n";

// Decimals of a height, as drawing programs export them; and the power of two that is the largest zero, whose digits all have to be looked at.
const DECIMALS: usize = 300;
const LARGEST_ZERO: i32 = -150;

// Heights of so many decimals: zeros; zeros behind a `0`, which are two tokens; and the largest zero.
fn heights() -> String {
    let zeros = "0".repeat(DECIMALS);
    let largest = format!("{:.DECIMALS$}", 2f64.powi(LARGEST_ZERO));
    format!("p{{height:.{zeros}px}}\n.k{{height:0.{zeros}px}}\n#top{{max-height:{}px}}\n", largest.trim_start_matches('0'))
}

// Copies of the rules, as many as fit.
fn repeated(rules: &str, length: usize) -> String {
    rules.repeat(length / rules.len())
}

// What opens a comment that nothing closes: before a name, behind a hash, a sign and a digit, each of which looks for a comment before it reads on, and
// behind a name.
const UNCLOSED: [&str; 5] = ["/*a", "#/*", "+/*", "1/*", "a/*"];
const VALUE: &str = "p{a:";

// A value of such comments: each `/*` is searched for its end through all the rest.
fn unclosed(opening: &str, length: usize) -> String {
    VALUE.to_owned() + &repeated(opening, length - VALUE.len())
}

// ---- measuring

fn nanoseconds(times: usize, mut work: impl FnMut()) -> f64 {
    let start = Instant::now();
    for _ in 0..times {
        work();
    }
    start.elapsed().as_nanos() as f64 / times as f64
}

fn median(mut values: Vec<f64>) -> f64 {
    values.sort_by(f64::total_cmp);
    values[values.len() / 2]
}

struct Measured {
    this: f64,
    html2text: f64,
    ratio: f64,
}

// Both take turns; the ratio is the median of the turns' ratios.
fn measure(sheet: &str, turns: usize, turn_bytes: usize) -> Measured {
    let mut stores = Stores::new(sheet.len(), 0);
    assert_eq!(stores.read_sheet(sheet.as_bytes()).count, count_rules(sheet), "both read the same rules");
    let times = (turn_bytes / sheet.len()).max(1);
    let (mut this, mut html2text, mut ratios) = (vec![], vec![], vec![]);
    for _ in 0..turns {
        let a = nanoseconds(times, || {
            black_box(stores.read_sheet(black_box(sheet.as_bytes())));
        });
        let b = nanoseconds(times, || {
            black_box(count_rules(black_box(sheet)));
        });
        this.push(a);
        html2text.push(b);
        ratios.push(a / b);
    }
    Measured { this: median(this), html2text: median(html2text), ratio: median(ratios) }
}

fn table_of_ratios() {
    println!("| sheet | bytes | this, ns a byte | html2text, ns a byte | ratio |\n|---|---|---|---|---|");
    let heights = heights();
    for (name, rules) in
        [("plain rules", PLAIN), ("comments", COMMENTS), ("strings", STRINGS), ("escapes", ESCAPES), ("heights of hundreds of decimals", &heights)]
    {
        for length in LENGTHS {
            let sheet = repeated(rules, length);
            assert_eq!(Stores::new(sheet.len(), 0).read_sheet(sheet.as_bytes()).stop, sheet.len(), "{name} are read whole");
            let m = measure(&sheet, TURNS, TURN_BYTES);
            let bytes = sheet.len() as f64;
            println!("| {name} | {} | {:.1} | {:.1} | {:.2} |", sheet.len(), m.this / bytes, m.html2text / bytes, m.ratio);
        }
    }
}

fn table_of_unclosed_comments() {
    println!("\n| unclosed comments | bytes | this, ms | html2text, ms | ratio |\n|---|---|---|---|---|");
    for opening in UNCLOSED {
        for length in LENGTHS {
            let sheet = unclosed(opening, length);
            let m = measure(&sheet, UNCLOSED_TURNS, UNCLOSED_TURN_BYTES);
            println!("| `{opening}` | {} | {:.2} | {:.2} | {:.2} |", sheet.len(), m.this / 1e6, m.html2text / 1e6, m.ratio);
        }
    }
}

// A sheet that stops at its first byte: html2text does nothing, and this clears the stores.
fn clearing() {
    println!();
    for length in LENGTHS {
        let m = measure(&"+".repeat(length), TURNS, TURN_BYTES);
        println!(
            "a sheet of {length} bytes that stops at once: {:.0} ns, {:.1} a byte, to clear the stores (html2text: {:.0} ns)",
            m.this,
            m.this / length as f64,
            m.html2text
        );
    }
}

// One side alone, again and again, for a profiler: `bench-read profile this|html2text plain|comments|strings|escapes|heights`.
fn profile(side: &str, kind: &str) {
    let heights = heights();
    let rules = match kind {
        "comments" => COMMENTS,
        "strings" => STRINGS,
        "escapes" => ESCAPES,
        "heights" => &heights,
        _ => PLAIN,
    };
    let sheet = repeated(rules, 4 * KILOBYTE);
    let mut stores = Stores::new(sheet.len(), 0);
    for _ in 0..20_000 {
        if side == "this" {
            black_box(stores.read_sheet(black_box(sheet.as_bytes())));
        } else {
            black_box(count_rules(black_box(&sheet)));
        }
    }
}

fn main() {
    let words: Vec<String> = std::env::args().skip(1).collect();
    if let [word, side, kind] = &words[..] {
        assert_eq!(word, "profile");
        return profile(side, kind);
    }
    table_of_ratios();
    table_of_unclosed_comments();
    clearing();
    println!("\nhtml2text is built over nom 7.1.1, and allocates; this checks that the sheet is UTF-8, and clears all stores at each reading.");
}
