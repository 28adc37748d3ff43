//! Prints the headings of a text, with their lines.
use pulldown_cmark::{Event, Parser, Tag, TagEnd};

fn main() -> std::io::Result<()> {
    let text = std::io::read_to_string(std::io::stdin())?;
    let (mut title, mut is_heading) = (String::new(), false);
    for (event, range) in Parser::new(&text).into_offset_iter() {
        match event {
            Event::Start(Tag::Heading { .. }) => is_heading = true,
            Event::End(TagEnd::Heading(level)) => {
                let line = text[..range.start].matches('\n').count() + 1;
                println!("{line}: {}{title}", "  ".repeat(level as usize - 1));
                (title, is_heading) = (String::new(), false);
            }
            Event::Text(part) | Event::Code(part) if is_heading => title.push_str(&part),
            _ => {}
        }
    }
    Ok(())
}
