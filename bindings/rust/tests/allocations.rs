//! A program that keeps its page, its compiled sheet and its workspace allocates nothing per page.
//!
//! Counted is what the test's own thread allocates: that of the test harness may allocate beside it.
#![allow(unsafe_code)]
use std::alloc::{GlobalAlloc, Layout, System};
use std::cell::Cell;

use hicsolmab::{Compiled, Page, Refusal, Settings, Sheets, Workspace, read_sheet_in};

thread_local! {
    static ALLOCATIONS: Cell<usize> = const { Cell::new(0) };
}

/// How often this thread has allocated.
fn allocations() -> usize {
    ALLOCATIONS.get()
}

/// The system's allocator, which counts.
struct Counting;

// SAFETY: everything is handed on to the system's allocator, which keeps the rules of one.
unsafe impl GlobalAlloc for Counting {
    unsafe fn alloc(&self, layout: Layout) -> *mut u8 {
        ALLOCATIONS.set(ALLOCATIONS.get() + 1);
        // SAFETY: the caller keeps the rules of this function, which are the same.
        unsafe { System.alloc(layout) }
    }

    unsafe fn dealloc(&self, place: *mut u8, layout: Layout) {
        // SAFETY: as above.
        unsafe { System.dealloc(place, layout) }
    }
}

#[global_allocator]
static ALLOCATOR: Counting = Counting;

/// What is kept from page to page.
struct Viewer {
    page: Page,
    compiled: Compiled,
    workspace: Workspace,
}

impl Viewer {
    /// Shows a page: so many paragraphs, styled in every way that there is. Gives how many of them are hidden.
    fn show(&mut self, paragraphs: usize, author: &[u8]) -> Result<usize, Refusal> {
        let Self { page, compiled, workspace } = self;
        page.clear();
        for _ in 0..paragraphs {
            page.open("p", [("class", "note"), ("style", "content: 'own'")])?;
            page.other()?;
            page.close();
        }
        let sheets = Sheets { agent: b"p { color: red }", user: b"", author };
        sheets.compile_into(compiled, workspace)?;
        read_sheet_in(author, workspace)?;
        sheets.style_in(page, 1, Settings::default(), workspace)?;
        sheets.style_book_in(page, 1, Settings::default(), workspace)?;
        let styles = compiled.run_in(page, Settings::default(), workspace)?;
        Ok(styles.elements().filter(|(_, style)| style.is_hidden() && style.content() == Some(b"own")).count())
    }
}

#[test]
fn nothing_is_allocated_once_buffers_have_grown() {
    let mut viewer = Viewer { page: Page::new(), compiled: Compiled::default(), workspace: Workspace::new() };
    let long = b".note { display: none } p::before { content: 'a long one' }";
    assert_eq!(viewer.show(50, long), Ok(50));
    let before = allocations();
    for paragraphs in (1..=50).rev() {
        let hidden = viewer.show(paragraphs, b".note { display: none }");
        assert_eq!(hidden, Ok(paragraphs));
        let shown = viewer.show(paragraphs, b".other { display: none }");
        assert_eq!(shown, Ok(0));
    }
    assert_eq!(allocations(), before);

    // With a workspace for the limits there is nothing to grow in it, even at the first page.
    let mut viewer = Viewer { workspace: Workspace::for_limits(), ..viewer };
    let before = allocations();
    assert_eq!(viewer.show(50, long), Ok(50));
    assert_eq!(allocations(), before);
}
