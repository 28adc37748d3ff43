//! The rules beyond CommonMark.

bitflags::bitflags! {
    /// The rules beyond CommonMark that apply. Join them by `|`.
    ///
    /// As in pulldown-cmark, links by email address (`<a@b.c>`) are read without an option, and all entity names of the HTML standard are
    /// known.
    ///
    /// ```
    /// use pulldown_cmark::{html, Options};
    ///
    /// let options = Options::ENABLE_SUPERSCRIPT | Options::ENABLE_SUBSCRIPT;
    /// assert_eq!(html::to_html("a^b^ c~d~", options)?, "<p>a<sup>b</sup> c<sub>d</sub></p>\n");
    /// # Ok::<(), pulldown_cmark::Error>(())
    /// ```
    #[derive(Default)]
    pub struct Options: u32 {
        /// Tables.
        const ENABLE_TABLES = 1 << 1;
        /// Footnotes as GitHub reads them.
        const ENABLE_FOOTNOTES = 1 << 2;
        /// Strikethrough: `~a~` and `~~a~~`.
        const ENABLE_STRIKETHROUGH = 1 << 3;
        /// Task list items: `- [x] a`.
        const ENABLE_TASKLISTS = 1 << 4;
        /// Typographic quotes, dashes and ellipses.
        const ENABLE_SMART_PUNCTUATION = 1 << 5;
        /// Attributes of headings: `# a {#b .c d=e}`.
        const ENABLE_HEADING_ATTRIBUTES = 1 << 6;
        /// Metadata between lines of `---`.
        const ENABLE_YAML_STYLE_METADATA_BLOCKS = 1 << 7;
        /// Metadata between lines of `+++`.
        const ENABLE_PLUSES_DELIMITED_METADATA_BLOCKS = 1 << 8;
        /// Footnotes in an older form. It includes [`Options::ENABLE_FOOTNOTES`].
        const ENABLE_OLD_FOOTNOTES = (1 << 9) | (1 << 2);
        /// Formulas: `$a$` and `$$a$$`.
        const ENABLE_MATH = 1 << 10;
        /// Only alerts: `> [!NOTE]`. [`Options::GITHUB`] has all rules that GitHub reads.
        const ENABLE_GFM = 1 << 11;
        /// Definition lists.
        const ENABLE_DEFINITION_LIST = 1 << 12;
        /// Superscript: `^a^`.
        const ENABLE_SUPERSCRIPT = 1 << 13;
        /// Subscript: `~a~`.
        const ENABLE_SUBSCRIPT = 1 << 14;
        /// Links by name: `[[page]]`.
        const ENABLE_WIKILINKS = 1 << 15;
        /// Highlighted text: `==a==`.
        #[cfg(feature = "highlight")]
        const ENABLE_HIGHLIGHT = 1 << 16;
    }
}

/// The library's bits for the rules that pulldown-cmark always applies: links by email address, and all entity names.
const ALWAYS: u32 = (1 << 17) | (1 << 30);

impl Options {
    /// The rules that GitHub reads: tables, footnotes, strikethrough, task lists and alerts. Links by email address are always read.
    pub const GITHUB: Options = Options::ENABLE_TABLES
        .union(Options::ENABLE_FOOTNOTES)
        .union(Options::ENABLE_STRIKETHROUGH)
        .union(Options::ENABLE_TASKLISTS)
        .union(Options::ENABLE_GFM);

    /// Returns whether footnotes are read as GitHub reads them, and not in their older form.
    pub fn has_gfm_footnotes(self) -> bool {
        self.contains(Options::ENABLE_FOOTNOTES) && !self.contains(Options::ENABLE_OLD_FOOTNOTES)
    }

    /// The options as the library's calls take them. Bits without a name are left out.
    pub(crate) fn library_bits(self) -> u32 {
        (self & Options::all()).bits() | ALWAYS
    }
}
