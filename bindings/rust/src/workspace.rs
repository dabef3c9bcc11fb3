use crate::calls::Stores;
use crate::layout::{ATTRIBUTE_LIMIT, ATTRIBUTE_WIDTH, COMPILED_LIMIT, NODE_LIMIT, NODE_WIDTH, SHEET_LIMIT, TEXT_LIMIT};
use crate::lengths;

/// The buffers of calls, kept from call to call.
///
/// They grow to what a call needs and stay so. A program that keeps one, with a [`Page`](crate::Page) that it clears and a
/// [`Compiled`](crate::Compiled) that it compiles into, allocates nothing more once they have grown, and nothing at all with [`Workspace::for_limits`].
///
/// ```
/// use hicsolmab::{Page, Settings, Sheets, Workspace};
///
/// let sheets = Sheets { author: b"p { color: red }", ..Sheets::default() };
/// let compiled = sheets.compile()?;
/// let mut workspace = Workspace::new();
/// let mut page = Page::new();
/// for paragraphs in 1..4 {
///     page.clear();
///     for _ in 0..paragraphs {
///         page.open("p", [])?;
///         page.close();
///     }
///     let styles = compiled.run_in(&page, Settings::default(), &mut workspace)?;
///     assert_eq!(styles.elements().count(), paragraphs);
/// }
/// # Ok::<(), hicsolmab::Refusal>(())
/// ```
#[derive(Debug, Clone, Default)]
pub struct Workspace {
    rules: Vec<u32>,
    tokens: Vec<u32>,
    brackets: Vec<u8>,
    texts: Vec<u8>,
    rows: Vec<u32>,
    state: Vec<u8>,
}

/// What a call has written, and what it is lent beside: style rows, a run's state, and the stores.
pub(crate) struct Lent<'a> {
    pub rows: &'a mut [u32],
    pub state: &'a mut [u8],
    pub stores: Stores<'a>,
}

impl Workspace {
    /// A workspace that has allocated nothing yet.
    #[must_use]
    pub const fn new() -> Self {
        Self { rules: Vec::new(), tokens: Vec::new(), brackets: Vec::new(), texts: Vec::new(), rows: Vec::new(), state: Vec::new() }
    }

    /// A workspace large enough for every call: for sheets, compiled bytes and a page at their limits. It takes some 20 MB.
    #[must_use]
    pub fn for_limits() -> Self {
        let bytes = lengths::style_bytes(SHEET_LIMIT, SHEET_LIMIT, SHEET_LIMIT, ATTRIBUTE_LIMIT * ATTRIBUTE_WIDTH, TEXT_LIMIT);
        let mut workspace = Self::new();
        workspace.lend(bytes, lengths::rows(NODE_LIMIT * NODE_WIDTH), lengths::state(COMPILED_LIMIT));
        workspace
    }

    /// The stores for so many bytes of text, with so many numbers of style rows and so many bytes of state. They are lent at these very lengths, for a call
    /// clears all that it is lent.
    pub(crate) fn lend(&mut self, bytes: usize, rows: usize, state: usize) -> Lent<'_> {
        Lent {
            rows: at_least(&mut self.rows, rows),
            state: at_least(&mut self.state, state),
            stores: Stores {
                rules: at_least(&mut self.rules, lengths::rules(bytes)),
                tokens: at_least(&mut self.tokens, lengths::tokens(bytes)),
                brackets: at_least(&mut self.brackets, lengths::brackets(bytes)),
                texts: at_least(&mut self.texts, lengths::texts(bytes)),
            },
        }
    }

    /// The stores for so many bytes of text.
    pub(crate) fn lend_stores(&mut self, bytes: usize) -> Stores<'_> {
        self.lend(bytes, 0, 0).stores
    }

    /// The first numbers of the style rows and the first bytes of the texts.
    pub(crate) fn answer(&self, rows: usize, texts: usize) -> (&[u32], &[u8]) {
        (&self.rows[..rows], &self.texts[..texts])
    }

    /// The same, as vectors of their own.
    pub(crate) fn into_answer(mut self, rows: usize, texts: usize) -> (Vec<u32>, Vec<u8>) {
        self.rows.truncate(rows);
        self.texts.truncate(texts);
        (self.rows, self.texts)
    }
}

/// So many of a buffer, which grows where it has fewer.
fn at_least<T: Copy + Default>(buffer: &mut Vec<T>, length: usize) -> &mut [T] {
    if buffer.len() < length {
        buffer.resize(length, T::default());
    }
    &mut buffer[..length]
}
