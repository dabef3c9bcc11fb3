/// What a call is told beside its sheets and its page.
///
/// ```
/// use hicsolmab::Settings;
///
/// assert!(Settings::default().document_styles());
/// let without = Settings::default().with_document_styles(false);
/// assert!(!without.document_styles());
/// ```
#[derive(Debug, Clone, Copy, PartialEq, Eq, Hash)]
pub struct Settings {
    document_styles: bool,
}

impl Default for Settings {
    /// Document styles count.
    fn default() -> Self {
        Self { document_styles: true }
    }
}

impl Settings {
    /// Whether the page's own `style`, `color` and `bgcolor` attributes count.
    #[must_use]
    pub const fn document_styles(self) -> bool {
        self.document_styles
    }

    /// The same, with the page's own `style`, `color` and `bgcolor` attributes counting or not.
    #[must_use]
    pub const fn with_document_styles(self, document_styles: bool) -> Self {
        Self { document_styles }
    }
}
