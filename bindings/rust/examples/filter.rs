//! Changes a text's events and writes their HTML: headings become one level lower, and links to other sites open in a new tab.
use pulldown_cmark::{html, Event, HeadingLevel, Parser, Tag, TagEnd};

fn lower(level: HeadingLevel) -> HeadingLevel {
    HeadingLevel::try_from(level as usize + 1).unwrap_or(HeadingLevel::H6)
}

fn changed(event: Event<'_>) -> Event<'_> {
    match event {
        Event::Start(Tag::Heading {
            level,
            id,
            classes,
            attrs,
        }) => Event::Start(Tag::Heading {
            level: lower(level),
            id,
            classes,
            attrs,
        }),
        Event::End(TagEnd::Heading(level)) => Event::End(TagEnd::Heading(lower(level))),
        Event::Start(Tag::Link { ref dest_url, .. }) if dest_url.contains("://") => {
            let mut start = String::new();
            html::push_html(&mut start, [event].into_iter());
            Event::InlineHtml(start.replace("<a ", "<a target=\"_blank\" ").into())
        }
        other => other,
    }
}

fn main() -> std::io::Result<()> {
    let text = std::io::read_to_string(std::io::stdin())?;
    html::write_html_io(std::io::stdout(), Parser::new(&text).map(changed))
}
