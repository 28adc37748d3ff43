//! Callbacks for links without a definition.

use crate::{CowStr, LinkType};
use std::ops::Range;

/// A link or an image whose label has no definition.
#[derive(Debug)]
pub struct BrokenLink<'a> {
    /// The range of the link in the text, in bytes.
    pub span: Range<usize>,
    /// How the link names its destination: [`LinkType::Reference`], [`LinkType::Collapsed`] or [`LinkType::Shortcut`].
    pub link_type: LinkType,
    /// The label.
    pub reference: CowStr<'a>,
}

impl<'a> BrokenLink<'a> {
    /// Returns the same link with a text of its own, which lives as long as needed.
    pub fn into_static(self) -> BrokenLink<'static> {
        BrokenLink {
            span: self.span,
            link_type: self.link_type,
            reference: self.reference.into_static(),
        }
    }
}

/// A callback for links without a definition. Closures with a matching signature implement it.
///
/// ```
/// use pulldown_cmark::{html, BrokenLink, BrokenLinkCallback, CowStr, Options, Parser};
///
/// struct Wiki;
///
/// impl<'input> BrokenLinkCallback<'input> for Wiki {
///     fn handle_broken_link(&mut self, link: BrokenLink<'input>) -> Option<(CowStr<'input>, CowStr<'input>)> {
///         Some((format!("/wiki/{}", link.reference).into(), "".into()))
///     }
/// }
///
/// let parser = Parser::new_with_broken_link_callback("[page]", Options::empty(), Some(Wiki));
/// let mut out = String::new();
/// html::push_html(&mut out, parser);
/// assert_eq!(out, "<p><a href=\"/wiki/page\">page</a></p>\n");
/// ```
///
/// See [`Parser::new_with_broken_link_callback`](crate::Parser::new_with_broken_link_callback).
pub trait BrokenLinkCallback<'input> {
    /// Returns the destination and the title of the link, or `None` if its brackets remain text.
    fn handle_broken_link(
        &mut self,
        link: BrokenLink<'input>,
    ) -> Option<(CowStr<'input>, CowStr<'input>)>;
}

impl<'input, T> BrokenLinkCallback<'input> for T
where
    T: FnMut(BrokenLink<'input>) -> Option<(CowStr<'input>, CowStr<'input>)>,
{
    fn handle_broken_link(
        &mut self,
        link: BrokenLink<'input>,
    ) -> Option<(CowStr<'input>, CowStr<'input>)> {
        self(link)
    }
}

impl<'input> BrokenLinkCallback<'input> for Box<dyn BrokenLinkCallback<'input>> {
    fn handle_broken_link(
        &mut self,
        link: BrokenLink<'input>,
    ) -> Option<(CowStr<'input>, CowStr<'input>)> {
        (**self).handle_broken_link(link)
    }
}

/// The callback of a parser without one. It returns `None`.
#[derive(Debug)]
pub struct DefaultBrokenLinkCallback;

impl<'input> BrokenLinkCallback<'input> for DefaultBrokenLinkCallback {
    fn handle_broken_link(
        &mut self,
        _link: BrokenLink<'input>,
    ) -> Option<(CowStr<'input>, CowStr<'input>)> {
        None
    }
}
