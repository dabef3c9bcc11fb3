//! The engine's functions as they are, over slices that the caller lends.
//!
//! Nothing is allocated here and nothing is sized: [`lengths`](crate::lengths) has the least lengths, [`layout`](crate::layout) says where each number stands. What
//! a call answers and leaves in each slice is told in `include/hicsolmab.h`. Most callers want [`Sheets::compile`] and [`Compiled::run`](crate::Compiled::run).
//!
//! This is the one file with `unsafe` code. Every block in it hands slices on to a function of the static library, as pointers and lengths.
#![allow(unsafe_code)]
use crate::{PageRows, Settings, Sheets};

/// What nearly every call is lent: three work stores, and the store of the texts that belong to its answer.
#[derive(Debug)]
pub struct Stores<'a> {
    /// A work store; of [`read_sheet`] the rules that were read.
    pub rules: &'a mut [u32],
    /// A work store.
    pub tokens: &'a mut [u32],
    /// A work store.
    pub brackets: &'a mut [u8],
    /// The texts; of [`height_length`] a work store.
    pub texts: &'a mut [u8],
}

/// What [`read_sheet`] answers.
#[repr(C)]
#[derive(Debug, Clone, Copy, PartialEq, Eq)]
pub struct SheetResult {
    /// The refusal's number, 0 where nothing is refused.
    pub refusal: u32,
    /// The refusal's place.
    pub place: usize,
    /// The rules that were read.
    pub count: usize,
    /// The first byte not read.
    pub stop: usize,
    /// The numbers of `rules` that the rules take.
    pub numbers: usize,
    /// The bytes of `texts` that their texts take.
    pub bytes: usize,
}

/// What [`height_length`] answers.
#[repr(C)]
#[derive(Debug, Clone, Copy, PartialEq, Eq)]
pub struct LengthResult {
    /// The refusal's number, 0 where nothing is refused.
    pub refusal: u32,
    /// The refusal's place.
    pub place: usize,
    /// What the length counts, as [`layout`](crate::layout) names it.
    pub kind: u32,
    /// So many.
    pub amount: u64,
}

/// What [`compile`] answers.
#[repr(C)]
#[derive(Debug, Clone, Copy, PartialEq, Eq)]
pub struct CompileResult {
    /// The refusal's number, 0 where nothing is refused.
    pub refusal: u32,
    /// The sheet that is refused.
    pub text: usize,
    /// The refusal's place in it.
    pub place: usize,
    /// The bytes of the compiled sheet.
    pub bytes: usize,
    /// The bytes of `texts` that the texts named by rules take.
    pub texts: usize,
}

/// What [`check_page`] answers.
#[repr(C)]
#[derive(Debug, Clone, Copy, PartialEq, Eq)]
pub struct PageResult {
    /// The refusal's number, 0 where nothing is refused.
    pub refusal: u32,
    /// The row that is refused.
    pub place: usize,
}

/// What [`style`] and [`style_book`] answer.
#[repr(C)]
#[derive(Debug, Clone, Copy, PartialEq, Eq)]
pub struct StyleResult {
    /// The refusal's number, 0 where nothing is refused.
    pub refusal: u32,
    /// The sheet that is refused.
    pub text: usize,
    /// The refusal's place: a byte of that sheet, or a row of the page.
    pub place: usize,
    /// The bytes of `texts` that were filled.
    pub texts: usize,
}

/// What [`run`] answers.
#[repr(C)]
#[derive(Debug, Clone, Copy, PartialEq, Eq)]
pub struct RunResult {
    /// The refusal's number, 0 where nothing is refused.
    pub refusal: u32,
    /// The refusal's place: a row of the page, or a byte of the compiled sheet.
    pub place: usize,
    /// The bytes of `texts` that were filled.
    pub texts: usize,
}

// A slice passes as a pointer and a length. tools/check-bindings compares these with the signatures in crates/engine/src.
#[rustfmt::skip]
unsafe extern "C" {
    fn hicsolmab_read_sheet(
        sheet: *const u8, sheet_length: usize,
        rules: *mut u32, rules_length: usize,
        tokens: *mut u32, tokens_length: usize,
        brackets: *mut u8, brackets_length: usize,
        texts: *mut u8, texts_length: usize,
    ) -> SheetResult;

    fn hicsolmab_height_length(
        value: *const u8, value_length: usize,
        rules: *mut u32, rules_length: usize,
        tokens: *mut u32, tokens_length: usize,
        brackets: *mut u8, brackets_length: usize,
        texts: *mut u8, texts_length: usize,
    ) -> LengthResult;

    fn hicsolmab_compile(
        agent: *const u8, agent_length: usize,
        user: *const u8, user_length: usize,
        author: *const u8, author_length: usize,
        compiled: *mut u8, compiled_length: usize,
        texts: *mut u8, texts_length: usize,
        rules: *mut u32, rules_length: usize,
        tokens: *mut u32, tokens_length: usize,
        brackets: *mut u8, brackets_length: usize,
    ) -> CompileResult;

    fn hicsolmab_check_page(
        nodes: *const u32, nodes_length: usize,
        attributes: *const u32, attributes_length: usize,
        text: *const u8, text_length: usize,
    ) -> PageResult;

    fn hicsolmab_style(
        agent: *const u8, agent_length: usize,
        user: *const u8, user_length: usize,
        author: *const u8, author_length: usize,
        nodes: *const u32, nodes_length: usize,
        attributes: *const u32, attributes_length: usize,
        text: *const u8, text_length: usize,
        row: usize,
        document_styles: u32,
        out: *mut u32, out_length: usize,
        texts: *mut u8, texts_length: usize,
        rules: *mut u32, rules_length: usize,
        tokens: *mut u32, tokens_length: usize,
        brackets: *mut u8, brackets_length: usize,
    ) -> StyleResult;

    fn hicsolmab_style_book(
        agent: *const u8, agent_length: usize,
        user: *const u8, user_length: usize,
        author: *const u8, author_length: usize,
        nodes: *const u32, nodes_length: usize,
        attributes: *const u32, attributes_length: usize,
        text: *const u8, text_length: usize,
        row: usize,
        document_styles: u32,
        out: *mut u32, out_length: usize,
        texts: *mut u8, texts_length: usize,
        rules: *mut u32, rules_length: usize,
        tokens: *mut u32, tokens_length: usize,
        brackets: *mut u8, brackets_length: usize,
    ) -> StyleResult;

    fn hicsolmab_run(
        compiled: *const u8, compiled_length: usize,
        nodes: *const u32, nodes_length: usize,
        attributes: *const u32, attributes_length: usize,
        text: *const u8, text_length: usize,
        document_styles: u32,
        rows: *mut u32, rows_length: usize,
        texts: *mut u8, texts_length: usize,
        state: *mut u8, state_length: usize,
        rules: *mut u32, rules_length: usize,
        tokens: *mut u32, tokens_length: usize,
        brackets: *mut u8, brackets_length: usize,
    ) -> RunResult;
}

/// Reads one sheet: its rules go to `rules`, their texts to `texts`.
#[must_use]
#[rustfmt::skip]
pub fn read_sheet(sheet: &[u8], stores: Stores<'_>) -> SheetResult {
    let Stores { rules, tokens, brackets, texts } = stores;
    // SAFETY: each pointer and length is a slice of this call, so the memory is there and aligned, and what is written is borrowed by nobody else. The function
    // stays within these slices whatever they hold, and keeps no pointer.
    unsafe {
        hicsolmab_read_sheet(
            sheet.as_ptr(), sheet.len(),
            rules.as_mut_ptr(), rules.len(),
            tokens.as_mut_ptr(), tokens.len(),
            brackets.as_mut_ptr(), brackets.len(),
            texts.as_mut_ptr(), texts.len(),
        )
    }
}

/// The exact length that a height's value is.
#[must_use]
#[rustfmt::skip]
pub fn height_length(value: &[u8], stores: Stores<'_>) -> LengthResult {
    let Stores { rules, tokens, brackets, texts } = stores;
    // SAFETY: as in `read_sheet`.
    unsafe {
        hicsolmab_height_length(
            value.as_ptr(), value.len(),
            rules.as_mut_ptr(), rules.len(),
            tokens.as_mut_ptr(), tokens.len(),
            brackets.as_mut_ptr(), brackets.len(),
            texts.as_mut_ptr(), texts.len(),
        )
    }
}

/// Compiles three sheets: the bytes go to `compiled`.
#[must_use]
#[rustfmt::skip]
pub fn compile(sheets: Sheets<'_>, compiled: &mut [u8], stores: Stores<'_>) -> CompileResult {
    let Sheets { agent, user, author } = sheets;
    let Stores { rules, tokens, brackets, texts } = stores;
    // SAFETY: as in `read_sheet`; the sheets may overlap each other, for they are only read.
    unsafe {
        hicsolmab_compile(
            agent.as_ptr(), agent.len(),
            user.as_ptr(), user.len(),
            author.as_ptr(), author.len(),
            compiled.as_mut_ptr(), compiled.len(),
            texts.as_mut_ptr(), texts.len(),
            rules.as_mut_ptr(), rules.len(),
            tokens.as_mut_ptr(), tokens.len(),
            brackets.as_mut_ptr(), brackets.len(),
        )
    }
}

/// Whether a page is accepted.
#[must_use]
#[rustfmt::skip]
pub fn check_page(page: PageRows<'_>) -> PageResult {
    let PageRows { nodes, attributes, text } = page;
    // SAFETY: each pointer and length is a slice of this call, which the function only reads.
    unsafe {
        hicsolmab_check_page(
            nodes.as_ptr(), nodes.len(),
            attributes.as_ptr(), attributes.len(),
            text.as_ptr(), text.len(),
        )
    }
}

/// The style of one element in html2text's cascade: its style row goes to `out`.
#[must_use]
#[rustfmt::skip]
pub fn style(sheets: Sheets<'_>, page: PageRows<'_>, row: usize, settings: Settings, out: &mut [u32], stores: Stores<'_>) -> StyleResult {
    let Sheets { agent, user, author } = sheets;
    let PageRows { nodes, attributes, text } = page;
    let Stores { rules, tokens, brackets, texts } = stores;
    // SAFETY: as in `read_sheet`; a row beyond the page is refused.
    unsafe {
        hicsolmab_style(
            agent.as_ptr(), agent.len(),
            user.as_ptr(), user.len(),
            author.as_ptr(), author.len(),
            nodes.as_ptr(), nodes.len(),
            attributes.as_ptr(), attributes.len(),
            text.as_ptr(), text.len(),
            row,
            settings.document_styles().into(),
            out.as_mut_ptr(), out.len(),
            texts.as_mut_ptr(), texts.len(),
            rules.as_mut_ptr(), rules.len(),
            tokens.as_mut_ptr(), tokens.len(),
            brackets.as_mut_ptr(), brackets.len(),
        )
    }
}

/// The style of one element in the order of CSS Cascading Level 3: its style row goes to `out`.
#[must_use]
#[rustfmt::skip]
pub fn style_book(sheets: Sheets<'_>, page: PageRows<'_>, row: usize, settings: Settings, out: &mut [u32], stores: Stores<'_>) -> StyleResult {
    let Sheets { agent, user, author } = sheets;
    let PageRows { nodes, attributes, text } = page;
    let Stores { rules, tokens, brackets, texts } = stores;
    // SAFETY: as in `style`.
    unsafe {
        hicsolmab_style_book(
            agent.as_ptr(), agent.len(),
            user.as_ptr(), user.len(),
            author.as_ptr(), author.len(),
            nodes.as_ptr(), nodes.len(),
            attributes.as_ptr(), attributes.len(),
            text.as_ptr(), text.len(),
            row,
            settings.document_styles().into(),
            out.as_mut_ptr(), out.len(),
            texts.as_mut_ptr(), texts.len(),
            rules.as_mut_ptr(), rules.len(),
            tokens.as_mut_ptr(), tokens.len(),
            brackets.as_mut_ptr(), brackets.len(),
        )
    }
}

/// The styles of all elements of a page by a compiled sheet: their style rows go to `rows`; `state` is a work store.
#[must_use]
#[rustfmt::skip]
pub fn run(compiled: &[u8], page: PageRows<'_>, settings: Settings, rows: &mut [u32], state: &mut [u8], stores: Stores<'_>) -> RunResult {
    let PageRows { nodes, attributes, text } = page;
    let Stores { rules, tokens, brackets, texts } = stores;
    // SAFETY: as in `read_sheet`.
    unsafe {
        hicsolmab_run(
            compiled.as_ptr(), compiled.len(),
            nodes.as_ptr(), nodes.len(),
            attributes.as_ptr(), attributes.len(),
            text.as_ptr(), text.len(),
            settings.document_styles().into(),
            rows.as_mut_ptr(), rows.len(),
            texts.as_mut_ptr(), texts.len(),
            state.as_mut_ptr(), state.len(),
            rules.as_mut_ptr(), rules.len(),
            tokens.as_mut_ptr(), tokens.len(),
            brackets.as_mut_ptr(), brackets.len(),
        )
    }
}
