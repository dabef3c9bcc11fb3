//! The functions that crates/engine_c and crates/comparison_c export, and the lent stores that they work in.
use judge::answers::Page;

#[repr(C)]
#[derive(Debug, Clone, Copy)]
pub struct SheetResult {
    pub refusal: u32,
    pub place: usize,
    pub count: usize,
    pub stop: usize,
    pub numbers: usize,
    pub bytes: usize,
}

#[repr(C)]
#[derive(Debug, Clone, Copy)]
pub struct LengthResult {
    pub refusal: u32,
    pub place: usize,
    pub kind: u32,
    pub amount: u64,
}

#[repr(C)]
#[derive(Debug, Clone, Copy)]
pub struct PageResult {
    pub refusal: u32,
    pub place: usize,
}

#[repr(C)]
#[derive(Debug, Clone, Copy)]
pub struct StylesResult {
    pub refusal: u32,
    pub count: usize,
    pub bytes: usize,
}

#[repr(C)]
#[derive(Debug, Clone, Copy)]
pub struct ColourResult {
    pub refusal: u32,
    pub found: u32,
    pub colour: u32,
}

#[repr(C)]
#[derive(Debug, Clone, Copy)]
pub struct MatchResult {
    pub refusal: u32,
    pub place: usize,
    pub matches: u32,
    pub ids: u32,
    pub classes: u32,
    pub types: u32,
}

#[cfg(compiler)]
#[repr(C)]
#[derive(Debug, Clone, Copy)]
pub struct CompileResult {
    pub refusal: u32,
    pub text: usize,
    pub place: usize,
    pub bytes: usize,
    pub texts: usize,
}

#[repr(C)]
#[derive(Debug, Clone, Copy, PartialEq, Eq)]
pub struct StyleResult {
    pub refusal: u32,
    pub text: usize,
    pub place: usize,
    pub texts: usize,
}

#[repr(C)]
#[derive(Debug, Clone, Copy, PartialEq, Eq)]
pub struct RunResult {
    pub refusal: u32,
    pub place: usize,
    pub texts: usize,
}

#[repr(C)]
#[derive(Debug, Clone, Copy, PartialEq, Eq)]
pub struct BytesResult {
    pub refusal: u32,
    pub place: usize,
}

/// The styles of all elements of a page by a compiled sheet, with the switch of document styles, to `rows` and `texts`; the others are work stores.
#[rustfmt::skip]
pub type RunFunction = unsafe extern "C" fn(
    compiled: *const u8, compiled_length: usize,
    nodes: *const u32, nodes_length: usize,
    attributes: *const u32, attributes_length: usize,
    text: *const u8, text_length: usize,
    document_styles: u32,
    rows: *mut u32, rows_length: usize,
    texts: *mut u8, texts_length: usize,
    state: *mut u8, state_length: usize,
    rules: *mut u32, rules_length: usize,
    tokens: *mut u32, tokens_length: usize,
    brackets: *mut u8, brackets_length: usize,
) -> RunResult;

/// The style of an element: of sheets and page, the row, and the switch of document styles, to `out` and `texts`; the others are work stores.
#[rustfmt::skip]
pub type StyleFunction = unsafe extern "C" fn(
    agent: *const u8, agent_length: usize,
    user: *const u8, user_length: usize,
    author: *const u8, author_length: usize,
    nodes: *const u32, nodes_length: usize,
    attributes: *const u32, attributes_length: usize,
    text: *const u8, text_length: usize,
    row: usize,
    document_styles: u32,
    out: *mut u32, out_length: usize,
    texts: *mut u8, texts_length: usize,
    rules: *mut u32, rules_length: usize,
    tokens: *mut u32, tokens_length: usize,
    brackets: *mut u8, brackets_length: usize,
) -> StyleResult;

// A slice passes as a pointer and a length.
#[rustfmt::skip]
unsafe extern "C" {
    fn hicsolmab_read_sheet(
        sheet: *const u8, sheet_length: usize,
        rules: *mut u32, rules_length: usize,
        tokens: *mut u32, tokens_length: usize,
        brackets: *mut u8, brackets_length: usize,
        texts: *mut u8, texts_length: usize,
    ) -> SheetResult;

    fn hicsolmab_height_length(
        value: *const u8, value_length: usize,
        rules: *mut u32, rules_length: usize,
        tokens: *mut u32, tokens_length: usize,
        brackets: *mut u8, brackets_length: usize,
        texts: *mut u8, texts_length: usize,
    ) -> LengthResult;

    fn hicsolmab_check_page(
        nodes: *const u32, nodes_length: usize,
        attributes: *const u32, attributes_length: usize,
        text: *const u8, text_length: usize,
    ) -> PageResult;

    fn comparison_style_attribute(
        value: *const u8, value_length: usize,
        rules: *mut u32, rules_length: usize,
        tokens: *mut u32, tokens_length: usize,
        brackets: *mut u8, brackets_length: usize,
        texts: *mut u8, texts_length: usize,
    ) -> StylesResult;

    fn comparison_color_attribute(
        value: *const u8, value_length: usize,
        tokens: *mut u32, tokens_length: usize,
        brackets: *mut u8, brackets_length: usize,
        texts: *mut u8, texts_length: usize,
    ) -> ColourResult;

    fn comparison_matches(
        components: *const u32, components_length: usize,
        count: usize,
        texts: *const u8, texts_length: usize,
        nodes: *const u32, nodes_length: usize,
        attributes: *const u32, attributes_length: usize,
        text: *const u8, text_length: usize,
        row: usize,
    ) -> MatchResult;

    fn comparison_check_bytes(bytes: *const u8, bytes_length: usize) -> BytesResult;

    #[cfg(run_call)]
    fn hicsolmab_run(
        compiled: *const u8, compiled_length: usize,
        nodes: *const u32, nodes_length: usize,
        attributes: *const u32, attributes_length: usize,
        text: *const u8, text_length: usize,
        document_styles: u32,
        rows: *mut u32, rows_length: usize,
        texts: *mut u8, texts_length: usize,
        state: *mut u8, state_length: usize,
        rules: *mut u32, rules_length: usize,
        tokens: *mut u32, tokens_length: usize,
        brackets: *mut u8, brackets_length: usize,
    ) -> RunResult;

    #[cfg(compiler)]
    fn hicsolmab_compile(
        agent: *const u8, agent_length: usize,
        user: *const u8, user_length: usize,
        author: *const u8, author_length: usize,
        compiled: *mut u8, compiled_length: usize,
        texts: *mut u8, texts_length: usize,
        rules: *mut u32, rules_length: usize,
        tokens: *mut u32, tokens_length: usize,
        brackets: *mut u8, brackets_length: usize,
    ) -> CompileResult;

    #[cfg(style_call)]
    fn hicsolmab_style(
        agent: *const u8, agent_length: usize,
        user: *const u8, user_length: usize,
        author: *const u8, author_length: usize,
        nodes: *const u32, nodes_length: usize,
        attributes: *const u32, attributes_length: usize,
        text: *const u8, text_length: usize,
        row: usize,
        document_styles: u32,
        out: *mut u32, out_length: usize,
        texts: *mut u8, texts_length: usize,
        rules: *mut u32, rules_length: usize,
        tokens: *mut u32, tokens_length: usize,
        brackets: *mut u8, brackets_length: usize,
    ) -> StyleResult;

    #[cfg(book_call)]
    fn hicsolmab_style_book(
        agent: *const u8, agent_length: usize,
        user: *const u8, user_length: usize,
        author: *const u8, author_length: usize,
        nodes: *const u32, nodes_length: usize,
        attributes: *const u32, attributes_length: usize,
        text: *const u8, text_length: usize,
        row: usize,
        document_styles: u32,
        out: *mut u32, out_length: usize,
        texts: *mut u8, texts_length: usize,
        rules: *mut u32, rules_length: usize,
        tokens: *mut u32, tokens_length: usize,
        brackets: *mut u8, brackets_length: usize,
    ) -> StyleResult;
}

/// The style calls, of the crate's cascade and of book order: None where the engine does not export them yet.
#[cfg(style_call)]
pub const STYLE_CALL: Option<StyleFunction> = Some(hicsolmab_style);
#[cfg(not(style_call))]
pub const STYLE_CALL: Option<StyleFunction> = None;
#[cfg(book_call)]
pub const BOOK_CALL: Option<StyleFunction> = Some(hicsolmab_style_book);
#[cfg(not(book_call))]
pub const BOOK_CALL: Option<StyleFunction> = None;

/// The run: None where the engine does not export it yet.
#[cfg(run_call)]
pub const RUN_CALL: Option<RunFunction> = Some(hicsolmab_run);
#[cfg(not(run_call))]
pub const RUN_CALL: Option<RunFunction> = None;

/// Stores of the least lengths for `n` bytes of text.
pub struct Stores {
    pub rules: Vec<u32>,
    pub tokens: Vec<u32>,
    pub brackets: Vec<u8>,
    pub texts: Vec<u8>,
}

impl Stores {
    /// Stores that hold `filling` throughout.
    pub fn new(n: usize, filling: u8) -> Stores {
        Stores::longer(n, 0, filling)
    }

    /// Stores that have `more` numbers or bytes each.
    pub fn longer(n: usize, more: usize, filling: u8) -> Stores {
        let numbers = 8 * n + 64 + more;
        Stores {
            rules: vec![u32::from(filling); numbers],
            tokens: vec![u32::from(filling); numbers],
            brackets: vec![filling; n + more],
            texts: vec![filling; 2 * n + 12 + more],
        }
    }

    #[rustfmt::skip]
    pub fn read_sheet(&mut self, sheet: &[u8]) -> SheetResult {
        // Sound: each pointer and length is that of a slice, which lives longer than the call; so in all calls below.
        unsafe {
            hicsolmab_read_sheet(
                sheet.as_ptr(), sheet.len(),
                self.rules.as_mut_ptr(), self.rules.len(),
                self.tokens.as_mut_ptr(), self.tokens.len(),
                self.brackets.as_mut_ptr(), self.brackets.len(),
                self.texts.as_mut_ptr(), self.texts.len(),
            )
        }
    }

    #[rustfmt::skip]
    pub fn height_length(&mut self, value: &[u8]) -> LengthResult {
        unsafe {
            hicsolmab_height_length(
                value.as_ptr(), value.len(),
                self.rules.as_mut_ptr(), self.rules.len(),
                self.tokens.as_mut_ptr(), self.tokens.len(),
                self.brackets.as_mut_ptr(), self.brackets.len(),
                self.texts.as_mut_ptr(), self.texts.len(),
            )
        }
    }

    #[rustfmt::skip]
    pub fn style_attribute(&mut self, value: &[u8]) -> StylesResult {
        unsafe {
            comparison_style_attribute(
                value.as_ptr(), value.len(),
                self.rules.as_mut_ptr(), self.rules.len(),
                self.tokens.as_mut_ptr(), self.tokens.len(),
                self.brackets.as_mut_ptr(), self.brackets.len(),
                self.texts.as_mut_ptr(), self.texts.len(),
            )
        }
    }

    #[rustfmt::skip]
    pub fn color_attribute(&mut self, value: &[u8]) -> ColourResult {
        unsafe {
            comparison_color_attribute(
                value.as_ptr(), value.len(),
                self.tokens.as_mut_ptr(), self.tokens.len(),
                self.brackets.as_mut_ptr(), self.brackets.len(),
                self.texts.as_mut_ptr(), self.texts.len(),
            )
        }
    }

    #[cfg(compiler)]
    #[rustfmt::skip]
    pub fn compile(&mut self, sheets: [&[u8]; 3], compiled: &mut [u8]) -> CompileResult {
        let [agent, user, author] = sheets;
        unsafe {
            hicsolmab_compile(
                agent.as_ptr(), agent.len(),
                user.as_ptr(), user.len(),
                author.as_ptr(), author.len(),
                compiled.as_mut_ptr(), compiled.len(),
                self.texts.as_mut_ptr(), self.texts.len(),
                self.rules.as_mut_ptr(), self.rules.len(),
                self.tokens.as_mut_ptr(), self.tokens.len(),
                self.brackets.as_mut_ptr(), self.brackets.len(),
            )
        }
    }
}

/// Three sheets, agent, user and author, over a page: what a style call reads beside its row.
#[derive(Clone, Copy)]
pub struct Styled<'a> {
    pub sheets: [&'a str; 3],
    pub page: &'a Page,
}

impl Styled<'_> {
    /// The bytes of text by which the stores of a style call are measured: all that is lent, and two for each attribute.
    pub fn bytes(&self) -> usize {
        let attributes = self.page.attributes.len() / judge::answers::ATTRIBUTE_WIDTH;
        self.sheets.iter().map(|s| s.len()).sum::<usize>() + self.page.text.len() + 2 * attributes
    }

    #[rustfmt::skip]
    pub fn style(&self, function: StyleFunction, row: usize, document_styles: u32, out: &mut [u32], stores: &mut Stores) -> StyleResult {
        let ([agent, user, author], page) = (self.sheets, self.page);
        unsafe {
            function(
                agent.as_ptr(), agent.len(),
                user.as_ptr(), user.len(),
                author.as_ptr(), author.len(),
                page.nodes.as_ptr(), page.nodes.len(),
                page.attributes.as_ptr(), page.attributes.len(),
                page.text.as_ptr(), page.text.len(),
                row,
                document_styles,
                out.as_mut_ptr(), out.len(),
                stores.texts.as_mut_ptr(), stores.texts.len(),
                stores.rules.as_mut_ptr(), stores.rules.len(),
                stores.tokens.as_mut_ptr(), stores.tokens.len(),
                stores.brackets.as_mut_ptr(), stores.brackets.len(),
            )
        }
    }
}

#[rustfmt::skip]
pub fn check_page(page: &Page) -> PageResult {
    unsafe {
        hicsolmab_check_page(
            page.nodes.as_ptr(), page.nodes.len(),
            page.attributes.as_ptr(), page.attributes.len(),
            page.text.as_ptr(), page.text.len(),
        )
    }
}

/// Whether the selector of these component rows matches a row of a page.
#[rustfmt::skip]
pub fn matches(components: &[u32], count: usize, texts: &[u8], page: &Page, row: usize) -> MatchResult {
    unsafe {
        comparison_matches(
            components.as_ptr(), components.len(),
            count,
            texts.as_ptr(), texts.len(),
            page.nodes.as_ptr(), page.nodes.len(),
            page.attributes.as_ptr(), page.attributes.len(),
            page.text.as_ptr(), page.text.len(),
            row,
        )
    }
}

/// Whether bytes are a compiled sheet.
pub fn check_bytes(bytes: &[u8]) -> BytesResult {
    unsafe { comparison_check_bytes(bytes.as_ptr(), bytes.len()) }
}

// ---- a run

/// A part of the state for each depth from 0 to 64.
const PARTS: usize = 65;

/// What a run reads: a compiled sheet and a page.
#[derive(Clone, Copy)]
pub struct Run<'a> {
    pub compiled: &'a [u8],
    pub nodes: &'a [u32],
    pub attributes: &'a [u32],
    pub text: &'a [u8],
}

/// What it writes.
pub struct Lent<'a> {
    pub rows: &'a mut [u32],
    pub texts: &'a mut [u8],
    pub state: &'a mut [u8],
    pub rules: &'a mut [u32],
    pub tokens: &'a mut [u32],
    pub brackets: &'a mut [u8],
}

/// The lengths of what a run writes.
#[derive(Debug, Clone, Copy)]
pub struct Lengths {
    pub rows: usize,
    pub texts: usize,
    pub state: usize,
    pub rules: usize,
    pub tokens: usize,
    pub brackets: usize,
}

impl Lengths {
    /// So many numbers or bytes more of each.
    pub fn longer(self, more: usize) -> Lengths {
        Lengths {
            rows: self.rows + more,
            texts: self.texts + more,
            state: self.state + more,
            rules: self.rules + more,
            tokens: self.tokens + more,
            brackets: self.brackets + more,
        }
    }
}

impl Run<'_> {
    pub fn new<'a>(compiled: &'a [u8], page: &'a Page) -> Run<'a> {
        Run { compiled, nodes: &page.nodes, attributes: &page.attributes, text: &page.text }
    }

    /// The least lengths of what it writes.
    pub fn least(&self) -> Lengths {
        let n = self.text.len() + 2 * (self.attributes.len() / judge::answers::ATTRIBUTE_WIDTH);
        Lengths {
            rows: judge::answers::STYLE_ROW_WIDTH * (self.nodes.len() / judge::answers::NODE_WIDTH),
            texts: 2 * n + 12,
            state: PARTS * (self.compiled.len() + 1),
            rules: 8 * n + 64,
            tokens: 8 * n + 64,
            brackets: n,
        }
    }

    #[rustfmt::skip]
    pub fn run(&self, function: RunFunction, document_styles: u32, lent: Lent) -> RunResult {
        unsafe {
            function(
                self.compiled.as_ptr(), self.compiled.len(),
                self.nodes.as_ptr(), self.nodes.len(),
                self.attributes.as_ptr(), self.attributes.len(),
                self.text.as_ptr(), self.text.len(),
                document_styles,
                lent.rows.as_mut_ptr(), lent.rows.len(),
                lent.texts.as_mut_ptr(), lent.texts.len(),
                lent.state.as_mut_ptr(), lent.state.len(),
                lent.rules.as_mut_ptr(), lent.rules.len(),
                lent.tokens.as_mut_ptr(), lent.tokens.len(),
                lent.brackets.as_mut_ptr(), lent.brackets.len(),
            )
        }
    }
}
