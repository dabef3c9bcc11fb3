//! viewer [--marks] PAGE.html [SCHOOL.css]
//!
//! Prints the text of a page in its colours, for a terminal; with `--marks` the colours are written out.
use std::error::Error;
use std::process::ExitCode;
use std::{env, fs};
use viewer::render::{in_colours, in_marks};

fn print(page: &str, school: Option<&String>, marks: bool) -> Result<(), Box<dyn Error>> {
    let html = fs::read(page)?;
    let school = school.map_or(Ok(String::new()), fs::read_to_string)?;
    for line in viewer::view(&html, &school)? {
        let pieces: String = line.iter().map(if marks { in_marks } else { in_colours }).collect();
        println!("{pieces}");
    }
    Ok(())
}

fn main() -> ExitCode {
    let mut words: Vec<String> = env::args().skip(1).collect();
    let marks = words.first().is_some_and(|word| word == "--marks");
    if marks {
        words.remove(0);
    }
    let Some(page) = words.first() else {
        eprintln!("viewer [--marks] PAGE.html [SCHOOL.css]");
        return ExitCode::from(2);
    };
    match print(page, words.get(1), marks) {
        Ok(()) => ExitCode::SUCCESS,
        Err(error) => {
            eprintln!("{page}: {error}");
            ExitCode::FAILURE
        }
    }
}
