use crate::layout::{COMPILED_LIMIT, SHEET_LIMIT, STYLE_ROW_WIDTH};
use crate::style::style_of;
use crate::workspace::Lent;
use crate::{Page, PageRows, Refusal, Settings, Style, StyledElement, Styles, Workspace, calls, lengths};

/// The stylesheets of the three origins, as texts in UTF-8.
///
/// A sheet that there is none of is empty: `Sheets { author, ..Sheets::default() }`.
#[derive(Debug, Clone, Copy, Default, PartialEq, Eq)]
pub struct Sheets<'a> {
    /// The sheet of the viewer's maker.
    pub agent: &'a [u8],
    /// The sheet of the viewer's user.
    pub user: &'a [u8],
    /// The page's own sheet.
    pub author: &'a [u8],
}

/// One of the two style calls.
type StyleCall = fn(Sheets<'_>, PageRows<'_>, usize, Settings, &mut [u32], calls::Stores<'_>) -> calls::StyleResult;

impl Sheets<'_> {
    /// Compiles the sheets.
    ///
    /// ```
    /// use hicsolmab::Sheets;
    ///
    /// let compiled = Sheets { author: b"p{color:red}", ..Sheets::default() }.compile()?;
    /// assert_eq!(compiled.as_bytes(), b"\x01\x03\x00\x01\x02\x01p\x01\x00\x02\x00\x80\x80\xfc\x07");
    /// # Ok::<(), hicsolmab::Refusal>(())
    /// ```
    ///
    /// # Errors
    ///
    /// `TooLong`, `NotUtf8`, `Panic` and `NoRoom` of [`Reason`](crate::Reason).
    pub fn compile(&self) -> Result<Compiled, Refusal> {
        let mut compiled = Compiled::default();
        self.compile_into(&mut compiled, &mut Workspace::new())?;
        compiled.bytes.shrink_to_fit();
        Ok(compiled)
    }

    /// Compiles the sheets in place of what was compiled before, in buffers that are kept. After a refusal `compiled` is the sheet that styles nothing.
    ///
    /// # Errors
    ///
    /// Those of [`compile`](Self::compile).
    pub fn compile_into(&self, compiled: &mut Compiled, workspace: &mut Workspace) -> Result<(), Refusal> {
        let [agent, user, author] = self.lengths();
        let stores = workspace.lend_stores(lengths::compile_bytes(agent, user, author));
        compiled.bytes.resize(COMPILED_LIMIT, 0);
        let answer = calls::compile(*self, &mut compiled.bytes, stores).accepted();
        match answer {
            Ok(result) => compiled.bytes.truncate(result.bytes),
            Err(_) => compiled.clear(),
        }
        answer.map(|_| ())
    }

    /// The style of one element of a page, in html2text's cascade: what [`Compiled::run`] gives for its row, straight from the sheets.
    ///
    /// # Errors
    ///
    /// `TooLong`, `NotUtf8`, `NoElement` and `Panic` of [`Reason`](crate::Reason).
    pub fn style(&self, page: &Page, row: usize, settings: Settings) -> Result<StyledElement, Refusal> {
        self.styled(calls::style, page, row, settings)
    }

    /// The style of one element of a page, in the order of CSS Cascading Level 3.
    ///
    /// ```
    /// use hicsolmab::{Page, Settings, Sheets};
    ///
    /// let sheets = Sheets { agent: b"p { color: red !important }", author: b"p { color: blue }", ..Sheets::default() };
    /// let mut page = Page::new();
    /// let row = page.open("p", [])?;
    /// let styled = sheets.style_book(&page, row, Settings::default())?;
    /// assert_eq!(styled.style().color().unwrap().to_string(), "#ff0000");
    /// # Ok::<(), hicsolmab::Refusal>(())
    /// ```
    ///
    /// # Errors
    ///
    /// Those of [`style`](Self::style).
    pub fn style_book(&self, page: &Page, row: usize, settings: Settings) -> Result<StyledElement, Refusal> {
        self.styled(calls::style_book, page, row, settings)
    }

    /// As [`style`](Self::style), in buffers that are kept.
    ///
    /// # Errors
    ///
    /// Those of [`style`](Self::style).
    pub fn style_in<'w>(&self, page: &Page, row: usize, settings: Settings, workspace: &'w mut Workspace) -> Result<Style<'w>, Refusal> {
        self.styled_in(calls::style, page, row, settings, workspace)
    }

    /// As [`style_book`](Self::style_book), in buffers that are kept.
    ///
    /// # Errors
    ///
    /// Those of [`style`](Self::style).
    pub fn style_book_in<'w>(&self, page: &Page, row: usize, settings: Settings, workspace: &'w mut Workspace) -> Result<Style<'w>, Refusal> {
        self.styled_in(calls::style_book, page, row, settings, workspace)
    }

    fn styled(&self, call: StyleCall, page: &Page, row: usize, settings: Settings) -> Result<StyledElement, Refusal> {
        let mut workspace = Workspace::new();
        let texts = self.call_style(call, page, row, settings, &mut workspace)?;
        let (numbers, texts) = workspace.into_answer(STYLE_ROW_WIDTH, texts);
        Ok(StyledElement::new(numbers, texts))
    }

    fn styled_in<'w>(&self, call: StyleCall, page: &Page, row: usize, settings: Settings, workspace: &'w mut Workspace) -> Result<Style<'w>, Refusal> {
        let texts = self.call_style(call, page, row, settings, workspace)?;
        let (numbers, texts) = workspace.answer(STYLE_ROW_WIDTH, texts);
        Ok(style_of(numbers, texts))
    }

    /// Calls, and gives the bytes of the texts that were filled.
    fn call_style(&self, call: StyleCall, page: &Page, row: usize, settings: Settings, workspace: &mut Workspace) -> Result<usize, Refusal> {
        let page = page.rows();
        let [agent, user, author] = self.lengths();
        let bytes = lengths::style_bytes(agent, user, author, page.attributes.len(), page.text.len());
        let Lent { rows, stores, .. } = workspace.lend(bytes, STYLE_ROW_WIDTH, 0);
        Ok(call(*self, page, row, settings, rows, stores).accepted()?.texts)
    }

    /// The lengths that buffers are sized for. A sheet over its limit is refused before the call looks at any buffer, so nothing is allocated for the rest of it.
    fn lengths(&self) -> [usize; 3] {
        [self.agent, self.user, self.author].map(|sheet| sheet.len().min(SHEET_LIMIT))
    }
}

/// A compiled sheet: three stylesheets in the form that a run goes down a page with.
///
/// Its bytes can be kept, for this version of the engine and those whose changelog does not call them void.
#[derive(Debug, Clone, PartialEq, Eq, Hash)]
pub struct Compiled {
    bytes: Vec<u8>,
}

/// The compiled sheet of no selectors.
const NO_SELECTORS: u8 = 0;

impl Default for Compiled {
    /// The compiled form of three empty sheets, which styles nothing.
    fn default() -> Self {
        Self { bytes: vec![NO_SELECTORS] }
    }
}

impl Compiled {
    /// Takes bytes that [`as_bytes`](Self::as_bytes) gave before.
    ///
    /// Bytes that were compiled before styles had the start of their declaration are void. They carry no mark: mostly they are refused, but not always.
    ///
    /// ```
    /// use hicsolmab::{Compiled, Reason, Sheets};
    ///
    /// let compiled = Sheets { author: b"p{color:red}", ..Sheets::default() }.compile()?;
    /// let kept = compiled.as_bytes().to_vec();
    /// assert_eq!(Compiled::from_bytes(kept)?, compiled);
    /// let refusal = Compiled::from_bytes(b"\x01\x03\x00".to_vec()).unwrap_err();
    /// assert_eq!((refusal.reason(), refusal.place()), (Reason::BadBytes, 3));
    /// # Ok::<(), hicsolmab::Refusal>(())
    /// ```
    ///
    /// # Errors
    ///
    /// `TooLong` and `BadBytes` of [`Reason`](crate::Reason).
    pub fn from_bytes(bytes: Vec<u8>) -> Result<Self, Refusal> {
        let compiled = Self { bytes };
        // A run reads all of its bytes before it looks at an element, so a page without any will do.
        compiled.call_run(&Page::new(), Settings::default(), &mut Workspace::new())?;
        Ok(compiled)
    }

    /// Its bytes.
    #[must_use]
    pub fn as_bytes(&self) -> &[u8] {
        &self.bytes
    }

    /// Its bytes, as a vector.
    #[must_use]
    pub fn into_bytes(self) -> Vec<u8> {
        self.bytes
    }

    /// The styles of all elements of a page, in html2text's cascade.
    ///
    /// # Errors
    ///
    /// None today: what a run can refuse was refused when page and compiled sheet were made.
    pub fn run(&self, page: &Page, settings: Settings) -> Result<Styles<'_>, Refusal> {
        let mut workspace = Workspace::new();
        let texts = self.call_run(page, settings, &mut workspace)?;
        let (rows, texts) = workspace.into_answer(lengths::rows(page.rows().nodes.len()), texts);
        Ok(Styles::new(&self.bytes, rows, texts))
    }

    /// As [`run`](Self::run), in buffers that are kept.
    ///
    /// # Errors
    ///
    /// Those of [`run`](Self::run).
    pub fn run_in<'a>(&'a self, page: &Page, settings: Settings, workspace: &'a mut Workspace) -> Result<Styles<'a>, Refusal> {
        let texts = self.call_run(page, settings, workspace)?;
        let (rows, texts) = workspace.answer(lengths::rows(page.rows().nodes.len()), texts);
        Ok(Styles::new(&self.bytes, rows, texts))
    }

    /// Calls, and gives the bytes of the texts that were filled.
    fn call_run(&self, page: &Page, settings: Settings, workspace: &mut Workspace) -> Result<usize, Refusal> {
        let page = page.rows();
        let bytes = lengths::run_bytes(page.attributes.len(), page.text.len());
        // A compiled sheet over its limit is refused before the call looks at any buffer.
        let state = lengths::state(self.bytes.len().min(COMPILED_LIMIT));
        let Lent { rows, state, stores } = workspace.lend(bytes, lengths::rows(page.nodes.len()), state);
        Ok(calls::run(&self.bytes, page, settings, rows, state, stores).accepted()?.texts)
    }

    fn clear(&mut self) {
        self.bytes.clear();
        self.bytes.push(NO_SELECTORS);
    }
}

/// What reading one sheet comes to.
#[derive(Debug, Clone, Copy, PartialEq, Eq, Hash)]
pub struct SheetRead {
    /// How many rules were read.
    pub rules: usize,
    /// The first byte that was not read; the sheet's length where all of it was.
    pub stop: usize,
}

/// Reads one sheet and says where reading stopped. Like html2text, the engine stops for good at the first rule that it cannot read.
///
/// ```
/// use hicsolmab::{SheetRead, read_sheet};
///
/// let sheet = b"p { color: red } q { color } a { color: lime }";
/// assert_eq!(read_sheet(sheet)?, SheetRead { rules: 1, stop: 17 });
/// # Ok::<(), hicsolmab::Refusal>(())
/// ```
///
/// # Errors
///
/// `TooLong`, `NotUtf8` and `Panic` of [`Reason`](crate::Reason).
pub fn read_sheet(sheet: &[u8]) -> Result<SheetRead, Refusal> {
    read_sheet_in(sheet, &mut Workspace::new())
}

/// As [`read_sheet`], in buffers that are kept.
///
/// # Errors
///
/// Those of [`read_sheet`].
pub fn read_sheet_in(sheet: &[u8], workspace: &mut Workspace) -> Result<SheetRead, Refusal> {
    // A sheet over its limit is refused before the call looks at any buffer.
    let stores = workspace.lend_stores(lengths::read_sheet_bytes(sheet.len().min(SHEET_LIMIT)));
    let result = calls::read_sheet(sheet, stores).accepted()?;
    Ok(SheetRead { rules: result.count, stop: result.stop })
}
