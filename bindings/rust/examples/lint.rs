//! Reports headings that skip a level, code blocks without a language, and line breaks as raw HTML.
use pulldown_cmark::{CodeBlockKind, Event, Parser, Tag};

fn main() -> std::io::Result<()> {
    let text = std::io::read_to_string(std::io::stdin())?;
    let mut last = None;
    for (event, range) in Parser::new(&text).into_offset_iter() {
        let fault = match event {
            Event::Start(Tag::Heading { level, .. }) => {
                let before = last.replace(level);
                before
                    .filter(|before| level as usize > *before as usize + 1)
                    .map(|before| format!("{level} after {before}"))
            }
            Event::Start(Tag::CodeBlock(CodeBlockKind::Fenced(language))) => language
                .is_empty()
                .then(|| "a code block without a language".into()),
            Event::InlineHtml(tag) if tag.starts_with("<br") => Some(format!("raw HTML: {tag}")),
            _ => None,
        };
        if let Some(fault) = fault {
            println!("{}: {fault}", text[..range.start].matches('\n').count() + 1);
        }
    }
    Ok(())
}
