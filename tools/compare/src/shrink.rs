//! The smallest input that can be found which both sides still answer differently.
use crate::pages;
use crate::questions::{Answer, Input};
use std::time::{Duration, Instant};

const TIME: Duration = Duration::from_secs(30);

// Sizes of a part are halved down to twice this one, and then tried one by one.
const STEPS: usize = 16;

// Below this length parts are cut out at every byte, above it side by side.
const SHORT: usize = 200;

// Texts with a part of `size` bytes less.
fn shorter(text: &str, size: usize) -> Vec<String> {
    let step = if text.len() < SHORT { 1 } else { size };
    let cuts = (0..text.len()).step_by(step).map(|start| (start, (start + size).min(text.len())));
    cuts.filter(|&(start, end)| text.is_char_boundary(start) && text.is_char_boundary(end))
        .map(|(start, end)| format!("{}{}", &text[..start], &text[end..]))
        .collect()
}

// Texts with any part less, larger parts first.
fn all_shorter(text: &str) -> Vec<String> {
    let mut found = vec![];
    let mut size = text.len();
    while size > 0 {
        found.extend(shorter(text, size));
        size = if size < 2 * STEPS { size - 1 } else { size / 2 };
    }
    found
}

fn smaller(input: &Input) -> Vec<Input> {
    let mut found: Vec<Input> = pages::smaller(&input.tree).into_iter().map(|tree| Input { tree, ..input.clone() }).collect();
    for (i, text) in input.texts.iter().enumerate() {
        for shorter in all_shorter(text) {
            let mut less = input.clone();
            less.texts[i] = shorter;
            found.push(less);
        }
    }
    let trees = pages::with_values(&input.tree, all_shorter);
    found.extend(trees.into_iter().map(|tree| Input { tree, ..input.clone() }));
    found
}

/// Takes parts away as long as the answers stay different, and as long as it has time.
pub fn shrink(ask: fn(&Input) -> Answer, input: Input) -> Input {
    let start = Instant::now();
    let differs = |input: &Input| start.elapsed() < TIME && matches!(ask(input), Answer::Different(_));
    let mut least = input;
    loop {
        match smaller(&least).into_iter().find(differs) {
            Some(input) => least = input,
            None => return least,
        }
    }
}
