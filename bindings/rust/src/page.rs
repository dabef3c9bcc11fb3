use crate::layout::{
    ATTRIBUTE_LIMIT, ATTRIBUTE_NAME_LENGTH, ATTRIBUTE_NAME_START, ATTRIBUTE_VALUE_LENGTH, ATTRIBUTE_VALUE_START, ATTRIBUTE_WIDTH, DEPTH_LIMIT, DOCUMENT,
    ELEMENT, NODE_ATTRIBUTE_COUNT, NODE_FIRST_ATTRIBUTE, NODE_KIND, NODE_LIMIT, NODE_NAME_LENGTH, NODE_NAME_START, NODE_PARENT, NODE_WIDTH, OTHER, TEXT_LIMIT,
};
use crate::{Refusal, calls};

/// A page in rows. `include/hicsolmab.h` has their rules; [`Page`] keeps them.
#[derive(Debug, Clone, Copy, PartialEq, Eq)]
pub struct PageRows<'a> {
    /// Node rows, in document order.
    pub nodes: &'a [u32],
    /// Attribute rows.
    pub attributes: &'a [u32],
    /// All names and values.
    pub text: &'a [u8],
}

/// A page, as the elements and other nodes below its document.
///
/// It is built in document order: an element is opened, then come the nodes in it, then it is closed. What stands in it is always accepted by the engine.
///
/// ```
/// use hicsolmab::Page;
///
/// // <p class="note">Volts <b>5</b></p>
/// let mut page = Page::new();
/// let p = page.open("p", [("class", "note")])?;
/// page.other()?; // the text
/// let b = page.open("b", [])?;
/// page.other()?;
/// page.close();
/// page.close();
///
/// assert_eq!((p, b, page.row_count()), (1, 3, 5));
/// assert_eq!(page.name(b), Some("b"));
/// assert_eq!(page.parent(b), Some(p));
/// # Ok::<(), hicsolmab::Refusal>(())
/// ```
#[derive(Debug, Clone, PartialEq, Eq)]
pub struct Page {
    nodes: Vec<u32>,
    attributes: Vec<u32>,
    text: Vec<u8>,
    /// The rows of the elements that are open, outermost first.
    open: Vec<u32>,
}

/// The row of the document.
const DOCUMENT_ROW: u32 = 0;

impl Default for Page {
    fn default() -> Self {
        Self::new()
    }
}

impl Page {
    /// A page of the document alone, which is row 0.
    #[must_use]
    pub fn new() -> Self {
        let mut document = [0; NODE_WIDTH];
        document[NODE_KIND] = DOCUMENT;
        Self { nodes: document.to_vec(), attributes: Vec::new(), text: Vec::new(), open: Vec::new() }
    }

    /// Takes a page that is in rows already. What is left over at the end of `attributes` and `text`, and named by no row, is dropped.
    ///
    /// No element is open, so that what is opened next stands below the document.
    ///
    /// ```
    /// use hicsolmab::Page;
    ///
    /// let nodes = vec![0, 0, 0, 0, 0, 0, 1, 0, 0, 1, 0, 0];
    /// let page = Page::from_rows(nodes, Vec::new(), b"p".to_vec())?;
    /// assert_eq!(page.name(1), Some("p"));
    /// # Ok::<(), hicsolmab::Refusal>(())
    /// ```
    ///
    /// # Errors
    ///
    /// `TooLarge`, `BadRow` and `BadText` of [`Reason`](crate::Reason).
    pub fn from_rows(nodes: Vec<u32>, attributes: Vec<u32>, text: Vec<u8>) -> Result<Self, Refusal> {
        let mut page = Self { nodes, attributes, text, open: Vec::new() };
        calls::check_page(page.rows()).accepted()?;
        let (attributes_end, text_end) = page.ends();
        page.attributes.truncate(attributes_end * ATTRIBUTE_WIDTH);
        page.text.truncate(text_end);
        Ok(page)
    }

    /// Leaves the document alone, and keeps what is allocated.
    pub fn clear(&mut self) {
        self.nodes.truncate(NODE_WIDTH);
        self.attributes.clear();
        self.text.clear();
        self.open.clear();
    }

    /// Opens an element with these attributes, each a name and a value, in the element that is open, and gives its row.
    ///
    /// # Errors
    ///
    /// `TooLarge` where the page would pass a limit, `BadRow` where the element would be deeper than [`DEPTH_LIMIT`]; the page is then as it was.
    pub fn open<'n>(&mut self, name: &'n str, attributes: impl IntoIterator<Item = (&'n str, &'n str)>) -> Result<usize, Refusal> {
        let row = self.next_row()?;
        let (attributes_before, text_before) = (self.attributes.len(), self.text.len());
        let pushed = self.push_texts(name, attributes);
        let Ok([name_start, name_length]) = pushed else {
            self.attributes.truncate(attributes_before);
            self.text.truncate(text_before);
            return Err(Refusal::page_too_large());
        };
        let first = attributes_before / ATTRIBUTE_WIDTH;
        let mut numbers = [0; NODE_WIDTH];
        numbers[NODE_KIND] = ELEMENT;
        numbers[NODE_PARENT] = self.parent_row();
        numbers[NODE_NAME_START] = name_start;
        numbers[NODE_NAME_LENGTH] = name_length;
        numbers[NODE_FIRST_ATTRIBUTE] = number(first);
        numbers[NODE_ATTRIBUTE_COUNT] = number(self.attributes.len() / ATTRIBUTE_WIDTH - first);
        self.nodes.extend(numbers);
        self.open.push(number(row));
        Ok(row)
    }

    /// Closes the element that was opened last and is open still, and gives its row; `None` where none is.
    pub fn close(&mut self) -> Option<usize> {
        self.open.pop().map(|row| row as usize)
    }

    /// Adds a node that is no element, such as a text or a comment, and gives its row. The engine gives it no style.
    ///
    /// # Errors
    ///
    /// Those of [`open`](Self::open).
    pub fn other(&mut self) -> Result<usize, Refusal> {
        let row = self.next_row()?;
        let mut numbers = [0; NODE_WIDTH];
        numbers[NODE_KIND] = OTHER;
        numbers[NODE_PARENT] = self.parent_row();
        self.nodes.extend(numbers);
        Ok(row)
    }

    /// Its rows, the document's among them.
    #[must_use]
    pub fn row_count(&self) -> usize {
        self.nodes.len() / NODE_WIDTH
    }

    /// Whether a row is an element.
    #[must_use]
    pub fn is_element(&self, row: usize) -> bool {
        self.node(row).is_some_and(|node| node[NODE_KIND] == ELEMENT)
    }

    /// The name of the element in a row.
    #[must_use]
    pub fn name(&self, row: usize) -> Option<&str> {
        let node = self.element(row)?;
        Some(self.text_at(node[NODE_NAME_START], node[NODE_NAME_LENGTH]))
    }

    /// The row of the parent of a node, which is 0 for the document; `None` for the document itself, and beyond the page.
    #[must_use]
    pub fn parent(&self, row: usize) -> Option<usize> {
        let node = self.node(row)?;
        (node[NODE_KIND] != DOCUMENT).then(|| node[NODE_PARENT] as usize)
    }

    /// The attributes of the element in a row, each a name and a value; none where the row is no element.
    pub fn attributes(&self, row: usize) -> impl Iterator<Item = (&str, &str)> {
        let rows = self.element(row).map_or(&[][..], |node| {
            let first = node[NODE_FIRST_ATTRIBUTE] as usize * ATTRIBUTE_WIDTH;
            &self.attributes[first..][..node[NODE_ATTRIBUTE_COUNT] as usize * ATTRIBUTE_WIDTH]
        });
        rows.chunks_exact(ATTRIBUTE_WIDTH).map(|attribute| {
            (
                self.text_at(attribute[ATTRIBUTE_NAME_START], attribute[ATTRIBUTE_NAME_LENGTH]),
                self.text_at(attribute[ATTRIBUTE_VALUE_START], attribute[ATTRIBUTE_VALUE_LENGTH]),
            )
        })
    }

    /// The page in rows.
    #[must_use]
    pub fn rows(&self) -> PageRows<'_> {
        PageRows { nodes: &self.nodes, attributes: &self.attributes, text: &self.text }
    }

    /// The row behind the last, where it may stand: within the limits of nodes and of depth.
    fn next_row(&self) -> Result<usize, Refusal> {
        let row = self.row_count();
        if row >= NODE_LIMIT {
            return Err(Refusal::page_too_large());
        }
        if self.open.len() >= DEPTH_LIMIT {
            return Err(Refusal::row_too_deep(row));
        }
        Ok(row)
    }

    fn parent_row(&self) -> u32 {
        self.open.last().copied().unwrap_or(DOCUMENT_ROW)
    }

    /// Adds the texts and attribute rows of an element; gives start and length of its name.
    fn push_texts<'n>(&mut self, name: &'n str, attributes: impl IntoIterator<Item = (&'n str, &'n str)>) -> Result<[u32; 2], OverLimit> {
        let place = self.push_text(name)?;
        for (name, value) in attributes {
            if self.attributes.len() / ATTRIBUTE_WIDTH >= ATTRIBUTE_LIMIT {
                return Err(OverLimit);
            }
            let [name_start, name_length] = self.push_text(name)?;
            let [value_start, value_length] = self.push_text(value)?;
            let mut numbers = [0; ATTRIBUTE_WIDTH];
            numbers[ATTRIBUTE_NAME_START] = name_start;
            numbers[ATTRIBUTE_NAME_LENGTH] = name_length;
            numbers[ATTRIBUTE_VALUE_START] = value_start;
            numbers[ATTRIBUTE_VALUE_LENGTH] = value_length;
            self.attributes.extend(numbers);
        }
        Ok(place)
    }

    /// Adds a text; gives its start and its length.
    fn push_text(&mut self, text: &str) -> Result<[u32; 2], OverLimit> {
        let start = self.text.len();
        if text.len() > TEXT_LIMIT - start {
            return Err(OverLimit);
        }
        self.text.extend(text.as_bytes());
        Ok([number(start), number(text.len())])
    }

    /// How many attribute rows and how many bytes of text the rows name. They follow on from element to element, so the last one has their ends.
    fn ends(&self) -> (usize, usize) {
        let mut nodes = self.nodes.chunks_exact(NODE_WIDTH);
        let Some(node) = nodes.rfind(|node| node[NODE_KIND] == ELEMENT) else {
            return (0, 0);
        };
        let first = node[NODE_FIRST_ATTRIBUTE] as usize;
        let end = first + node[NODE_ATTRIBUTE_COUNT] as usize;
        let attributes = &self.attributes[first * ATTRIBUTE_WIDTH..end * ATTRIBUTE_WIDTH];
        let (start, length) = attributes
            .chunks_exact(ATTRIBUTE_WIDTH)
            .next_back()
            .map_or((node[NODE_NAME_START], node[NODE_NAME_LENGTH]), |attribute| (attribute[ATTRIBUTE_VALUE_START], attribute[ATTRIBUTE_VALUE_LENGTH]));
        (end, start as usize + length as usize)
    }

    fn node(&self, row: usize) -> Option<&[u32]> {
        self.nodes.chunks_exact(NODE_WIDTH).nth(row)
    }

    fn element(&self, row: usize) -> Option<&[u32]> {
        self.node(row).filter(|node| node[NODE_KIND] == ELEMENT)
    }

    /// A name or a value, of which the page holds that it is UTF-8.
    fn text_at(&self, start: u32, length: u32) -> &str {
        str::from_utf8(&self.text[start as usize..][..length as usize]).expect("names and values are UTF-8")
    }
}

/// What is added would pass a limit of a page.
#[derive(Debug)]
struct OverLimit;

/// A count within the limits of a page, all of which are far below 2^32.
fn number(count: usize) -> u32 {
    u32::try_from(count).expect("a page within its limits has small numbers")
}
