//! A stylesheet engine that nobody has to trust: three stylesheets and a page in, the style of each element out.
//!
//! The engine is the stylesheet half of html2text 0.17.4, ported to a language in which every function is proved to do what its contract says, for all bytes. This
//! crate is how a Rust program calls it. It has no dependencies, and its `unsafe` code is one small file that hands slices on to the engine's static library.
//!
//! # Five lines
//!
//! ```
//! use hicsolmab::{Page, Settings, Sheets};
//!
//! # fn main() -> Result<(), hicsolmab::Refusal> {
//! # let (agent, user) = (b"b { color: #00ff00 }", b"");
//! # let author = b"p { color: red } .key { display: none } p::before { content: '> ' }";
//! # let mut page = Page::new();
//! # page.open("p", [])?;
//! # page.open("b", [("class", "key")])?;
//! let sheets = Sheets { agent, user, author };
//! let compiled = sheets.compile()?;
//! let styles = compiled.run(&page, Settings::default())?;
//! for (row, style) in styles.elements() {
//!     let shown = if style.is_hidden() { "hidden" } else { "shown" };
//!     println!("row {row}: {shown}, {:?}, {:?}", style.color(), style.before().and_then(|before| before.content()));
//! }
//! # assert_eq!(styles.elements().count(), 2);
//! # assert!(styles.get(2).unwrap().is_hidden());
//! # assert_eq!(styles.get(1).unwrap().before().unwrap().content(), Some(&b"> "[..]));
//! # Ok(())
//! # }
//! ```
//!
//! A [`Page`] is built by opening and closing elements in document order, or taken from rows that a program has already. What cannot be served is refused: a
//! [`Refusal`] has a number, the text and place that it is about, and a sentence for a person.
//!
//! # Two cascades
//!
//! [`Compiled::run`] and [`Sheets::style`] give what html2text computes. In its cascade a child starts from all that its parent has, so that what is below a
//! hidden element is hidden, and a parent's colour from a stronger selector stays. [`Sheets::style_book`] gives the style of one element in the order of CSS
//! Cascading Level 3: what is declared on the element comes before all that it inherits, and only colour, white space and visibility inherit. There an element below
//! a hidden one is not hidden by itself, and [`Style::before`] and [`Style::after`] are there where a rule on the element has a style for them; they inherit from it.
//!
//! # Lines that keep their place
//!
//! What `display: none` hides is gone ([`Style::is_hidden`]); what `visibility: hidden` hides keeps its place and is not seen ([`Style::is_invisible`]). The engine knows
//! `visibility` with the one word `visible` or `hidden`. Html2text does not know it; in its cascade it is decided as the other properties are.
//!
//! # Heights
//!
//! [`height_length`] gives a height's value as an exact [`Length`], in whole units of which a pixel has 3,810,000.
//!
//! # Buffers
//!
//! The engine allocates nothing: what it writes to is lent to it. [`Sheets::compile`], [`Compiled::run`] and [`Sheets::style`] make buffers for each call. A
//! program that styles page after page keeps a [`Workspace`] and uses [`Sheets::compile_into`], [`Compiled::run_in`] and [`Sheets::style_in`]. One that has its
//! own buffers, and its pages in rows, uses [`calls`] directly.
//!
//! # Linking
//!
//! The build script links the engine's static library, for x86-64. It is the file that `HICSOLMAB_LIBRARY` names, or `../lib/libengine.a` where a distribution
//! has it, or what `bash tools/staticlib.sh engine` writes in the repository; where that is not there yet, the build script runs the command, which takes minutes.

pub mod calls;
mod height;
pub mod layout;
pub mod lengths;
mod page;
mod refusal;
mod settings;
mod sheets;
mod style;
mod workspace;

pub use height::{Length, height_length, height_length_in};
pub use page::{Page, PageRows};
pub use refusal::{Reason, Refusal};
pub use settings::Settings;
pub use sheets::{Compiled, SheetRead, Sheets, read_sheet, read_sheet_in};
pub use style::{Color, Declaration, Display, Elements, Origin, Record, Specificity, Style, StyledElement, Styles, Visibility, WhiteSpace};
pub use workspace::Workspace;
