//! Checks the links of a text: references without a definition, definitions that nothing refers to, and files that are not there.
use pulldown_cmark::{BrokenLink, Event, Options, Parser, Tag};
use std::collections::BTreeSet;

fn main() -> std::io::Result<()> {
    let text = std::io::read_to_string(std::io::stdin())?;
    let line = |at: usize| text[..at].matches('\n').count() + 1;
    let mut report = |link: BrokenLink| {
        println!(
            "{}: no definition: {}",
            line(link.span.start),
            link.reference
        );
        None
    };
    let parser = Parser::new_with_broken_link_callback(&text, Options::GITHUB, Some(&mut report));
    let mut events = parser.into_offset_iter();
    let mut used = BTreeSet::new();
    for (event, range) in events.by_ref() {
        let Event::Start(Tag::Link { dest_url, id, .. }) = event else {
            continue;
        };
        used.insert(id.to_lowercase());
        let file = dest_url.split('#').next().unwrap_or_default();
        let is_local = !file.is_empty() && !file.contains(':');
        if is_local && !std::path::Path::new(file).exists() {
            println!("{}: no file: {file}", line(range.start));
        }
    }
    for (label, definition) in events.reference_definitions().iter() {
        if !used.contains(&label.to_lowercase()) {
            println!("{}: not used: {label}", line(definition.span.start));
        }
    }
    Ok(())
}
