//! Link reference definitions.

use crate::decode;
use crate::lend;
use crate::record::{kind, part, Records};
use crate::{CowStr, Error};
use std::collections::HashMap;
use std::ops::Range;
use unicase::UniCase;

/// A link reference definition: `[label]: /destination "title"`.
#[derive(Clone, Debug)]
pub struct LinkDef<'a> {
    /// The destination.
    pub dest: CowStr<'a>,
    /// The title, if there is one.
    pub title: Option<CowStr<'a>>,
    /// The range of the definition in the text, in bytes.
    pub span: Range<usize>,
}

impl<'a> LinkDef<'a> {
    /// Returns the same definition with texts of its own, which live as long as needed.
    pub fn into_static(self) -> LinkDef<'static> {
        LinkDef {
            dest: self.dest.into_static(),
            title: self.title.map(CowStr::into_static),
            span: self.span,
        }
    }
}

/// The link reference definitions of a text: the first definition of each label.
///
/// ```
/// use pulldown_cmark::Parser;
///
/// let parser = Parser::new("[a]: /first 'A title'\n[A]: /second\n[b]: /third\n");
/// let definitions = parser.reference_definitions();
/// let found = definitions.get("a").unwrap();
/// assert_eq!((&*found.dest, found.title.as_deref()), ("/first", Some("A title")));
/// assert_eq!(definitions.iter().count(), 2);
/// ```
#[derive(Clone, Default, Debug)]
pub struct RefDefs<'input>(HashMap<UniCase<CowStr<'input>>, LinkDef<'input>>);

impl<'input, 'b, 's> RefDefs<'input>
where
    's: 'b,
{
    /// Returns the definition of a label, if there is one. Case is not compared.
    pub fn get(&'s self, key: &'b str) -> Option<&'b LinkDef<'input>> {
        self.0.get(&UniCase::new(key.into()))
    }

    /// Returns all definitions with their labels, in no particular order.
    pub fn iter(&'s self) -> impl Iterator<Item = (&'s str, &'s LinkDef<'input>)> {
        self.0.iter().map(|(label, found)| (label.as_ref(), found))
    }
}

/// The definitions of records, which are those of a text.
pub(crate) fn decode<'i>(source: &'i str, bytes: &[u8]) -> Result<RefDefs<'i>, Error> {
    let mut found = HashMap::new();
    let mut records = Records::of(bytes);
    while let Some(record) = records.next()? {
        if record.kind != kind::DEFINITION {
            return Err(Error::Malformed);
        }
        let span = decode::range(&record, source)?;
        let (mut title, mut next) = (None, records.further()?);
        if let Some(further) = next.filter(|it| it.tag == part::TITLE) {
            title = Some(lend::text(source, &span, further.text)?);
            next = records.further()?;
        }
        let label = next
            .filter(|it| it.tag == part::LABEL)
            .ok_or(Error::Malformed)?;
        let label = UniCase::new(lend::text(source, &span, label.text)?);
        let dest = lend::text(source, &span, record.text)?;
        found.try_reserve(1)?;
        found.entry(label).or_insert(LinkDef { dest, title, span });
    }
    Ok(RefDefs(found))
}
