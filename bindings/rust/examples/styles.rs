//! Compiles three sheets, runs them down a small page, and prints each element's colour, the line and column of the declaration that it is from, and whether the
//! element is hidden, or invisible in its place.
use hicsolmab::{Color, Declaration, Origin, Page, Refusal, Settings, Sheets};

// The maker's sheet gives the channels their colours, the school's hides what is not for the test, the third is the page's own.
const AGENT: &[u8] = b".ch1 { color: yellow }\n.ch2 { color: aqua }";
const USER: &[u8] = b".solution { display: none }";
const AUTHOR: &[u8] = b"h1 { color: #ff8800 }\np.ch2 > b { color: white }\n.ch1::before { content: 'CH1 ' }\n.answer { visibility: hidden }";

fn page() -> Result<Page, Refusal> {
    let mut page = Page::new();
    page.open("h1", [])?;
    page.close();
    page.open("p", [("class", "ch1")])?;
    page.close();
    page.open("p", [("class", "ch2")])?;
    page.open("b", [])?;
    page.close();
    page.close();
    page.open("div", [("class", "solution")])?;
    page.open("p", [("class", "ch1")])?;
    page.close();
    page.close();
    page.open("p", [("style", "color: #00ff00")])?;
    page.close();
    page.open("p", [])?;
    page.close();
    page.open("p", [("class", "answer")])?;
    page.close();
    Ok(page)
}

/// A colour, with the sheet and the line and column in it, counted in characters, where its declaration starts. What an attribute declares stands in no sheet.
fn show(color: Declaration<Color>) -> String {
    let Declaration { value, origin, inline, start, .. } = color;
    if inline {
        return format!("{value} by an attribute");
    }
    let (name, sheet) = match origin {
        Origin::Agent => ("agent", AGENT),
        Origin::User => ("user", USER),
        Origin::Author => ("author", AUTHOR),
    };
    let before = String::from_utf8_lossy(&sheet[..start]);
    let line = 1 + before.matches('\n').count();
    let column = 1 + before.chars().rev().take_while(|&c| c != '\n').count();
    format!("{value} by {name} {line}:{column}")
}

fn main() -> Result<(), Refusal> {
    let page = page()?;
    let sheets = Sheets { agent: AGENT, user: USER, author: AUTHOR };
    let compiled = sheets.compile()?;
    let styles = compiled.run(&page, Settings::default())?;
    for (row, style) in styles.elements() {
        let name = page.name(row).unwrap_or_default();
        let color = style.main().color_declaration().map_or("no colour".to_string(), show);
        let shown = match (style.is_hidden(), style.is_invisible()) {
            (true, _) => "hidden",
            (false, true) => "invisible",
            (false, false) => "shown",
        };
        println!("{row} {name}: {color}, {shown}");
    }
    Ok(())
}
