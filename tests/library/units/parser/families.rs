//! The searches of the spans on texts that make some parsers slow.

use bitflags::Flags;
use pulldown_cmark::{BasicEntities, Options, Parser};
use std::alloc::{AllocError, Global};
use std::test::Fail;

/// The most steps of the searches for each byte that any text is known to take. The contract of `Parser::steps` allows 128.
const MOST: u128 = 8;

/// Families of texts: a beginning, a part that is repeated, a middle, and another part with the same number of repetitions.
const FAMILIES: &[(&str, &str, &str, &str)] = &[
    ("", "*a **a ", "b", " a** a*"),
    ("", "a_ ", "", ""),
    ("", "_a ", "", ""),
    ("", "*a_ ", "", ""),
    ("a**b", "c* ", "", ""),
    ("", "a*b_", "", ""),
    ("", "*", "a", "*"),
    ("", "*", "a", ""),
    ("", "[ a_", "", ""),
    ("", "**x [a*b**c*](d) ", "", ""),
    ("", "[", "a", "]"),
    ("", "a]", "", ""),
    ("", "[a", "", ""),
    ("", "[ (](", "", ""),
    ("", "![[]()", "", ""),
    ("", "[a](<b", "", ""),
    ("", "[a](b", "", ""),
    ("", "[a](b \"c", "", ""),
    ("[a](", "(", "", ""),
    ("", "[a ", "b", "](c)"),
    ("", "![a ", "b", "](c)"),
    ("[a]: b\n\n", "[a] ", "", ""),
    ("", "[a][b] ", "", ""),
    ("", "[a]: b \"\n", "", ""),
    ("", "[a]:\n", "", ""),
    ("", "[a\n", "", ""),
    ("[", "a ", "]: /u\n", ""),
    ("", "`a``b", "", ""),
    ("", "\\`a`", "", ""),
    ("</", "<!--", "", ""),
    ("a ", "<?", "", ""),
    ("a ", "<!A ", "", ""),
    ("a ", "<![CDATA[", "", ""),
    ("x ", "<a b=c ", "", ""),
    ("x <a ", "a=b ", "", ""),
    ("x ", "<a b=\"", "", ""),
    ("x ", "<a:", "", ""),
    ("x ", "<a@b.", "", ""),
    ("x ", "<", "", ""),
    ("", "<div>\na\n\n", "", ""),
    ("", "<!-- a\n", "", ""),
    ("", "&", "", ""),
    ("", "&amp;&#35;", "", ""),
    ("&", "a", "", ""),
    ("", "\\", "", ""),
    ("", " ", "a", ""),
    ("", "\n", "", ""),
    ("", "a  \n", "", ""),
    ("", "a\0", "", ""),
    ("", "word ", "", ""),
    ("", "é ßü漢字 ", "", ""),
    ("", "\t", "a", ""),
    ("", "> ", "a", ""),
    ("", ">", "a", ""),
    ("", "- ", "a", ""),
    ("", "1. ", "a", ""),
    ("", "> - ", "a", ""),
    ("", "- a\n\n", "", ""),
    ("", "-\n", "", ""),
    ("", "- a\n+ b\n", "", ""),
    ("", "- ```\n", "", ""),
    ("", "---\n", "", ""),
    ("", "a\n-\n", "", ""),
    ("", "a\n", "===", ""),
    ("", "# a\n", "", ""),
    ("# a ", "#", "", ""),
    ("", "```\n", "", ""),
    ("", "~~~\n```\n", "", ""),
    ("", "    a\n\n", "", ""),
    ("", "*  ", "", ""),
    ("", "~~a ", "", ""),
    ("", "a~~ ", "", ""),
    ("", "~a~~ ", "", ""),
    ("", "a|b\n---|---\n", "", ""),
    ("", "a|b\n\n---|---\n\n", "", ""),
    ("", "|", "", ""),
    ("a|b\n---|---\n", "\\|", "", ""),
    ("a|b\n---|---\n", "`|", "", ""),
    ("", "- [ ] a\n", "", ""),
    ("", "\"a ", "", ""),
    ("", "'a ", "", ""),
    ("a ", "-", "", ""),
    ("# a ", "{", "", ""),
    ("# a {", " .c", "}", ""),
    ("[^a]: b\n\n", "[^a] ", "", ""),
    ("", "[^a", "", ""),
    ("", "$a ", "", ""),
    ("", "$$a ", "", ""),
    ("$", "{", "$", ""),
    ("", "$}{", "", ""),
    ("", "[[a", "", ""),
    ("", "[[a|", "", ""),
    ("", "^a ", "", ""),
    ("", "~a ", "", ""),
    ("", "a\n: b\n", "", ""),
    ("a\n", ": a\n", "", ""),
    ("a\n", ": ", "a", ""),
    ("---\n", "a: b\n", "", ""),
    ("", "> [!NOTE]\n> a\n\n", "", ""),
    ("x <?<!--<![CDATA[<!A", "<!", "", ""),
    ("x <?<!--<![CDATA[<!A", "<?", "", ""),
    ("x ", "<!A", "", ""),
    ("", "$", "", ""),
    ("", "$a$ ", "", ""),
    ("", "$$a ", "", ""),
    ("", " ${", "", ""),
    ("", "^a ", "", "^b "),
    ("", "*_^~*_", "", ""),
    ("", "==a ", "", "b== "),
    ("", "[[", "", "]]"),
    ("", "[^a", "", "]"),
];

/// The text of a family that has at least `size` bytes.
fn text_of(alloc: Global, family: (&str, &str, &str, &str), size: usize) -> Result<String, AllocError> {
    let (front, left, middle, right) = family;
    let count = size / (left.len() + right.len()) + 1;
    let mut text = String::new(alloc);
    text.push_str(front)?;
    for _ in 0..count {
        text.push_str(left)?;
    }
    text.push_str(middle)?;
    for _ in 0..count {
        text.push_str(right)?;
    }
    text.push_str("\n")?;
    Ok(text)
}

/// Runs of backticks, each longer than the one before it.
fn rising_backticks(alloc: Global, size: usize) -> Result<String, AllocError> {
    let mut text = String::new(alloc);
    for length in 1..size {
        if text.len() >= size {
            break;
        }
        text.push_str("e")?;
        for _ in 0..length {
            text.push_str("`")?;
        }
    }
    Ok(text)
}

/// The steps that the searches have taken at the end of a walk.
fn steps_of(alloc: Global, text: &str, options: Options) -> Result<u128, AllocError> {
    let mut parser = Parser::new_ext(alloc, text, options, &BasicEntities)?;
    for _ in 0..u64::MAX {
        let Some(item) = parser.next() else {
            break;
        };
        item?;
    }
    let steps = parser.steps();
    Ok(steps.html + steps.openers + steps.closers)
}

/// Whether the walks of a text, with all options and with none, take few steps for each byte.
fn takes_few(alloc: Global, text: &str) -> Result<bool, AllocError> {
    let most = text.len() as u128 * MOST;
    Ok(steps_of(alloc, text, Options::all())? <= most && steps_of(alloc, text, Options::empty())? <= most)
}

#[test]
fn families_take_few_steps(rt: HostRuntime) -> Result<(), Fail> {
    for size in [300, 4_000] {
        for family in FAMILIES {
            let text = text_of(rt.alloc(), *family, size)?;
            assert!(rt; takes_few(rt.alloc(), text.as_str())?);
        }
        let text = rising_backticks(rt.alloc(), size)?;
        assert!(rt; takes_few(rt.alloc(), text.as_str())?);
    }
    Ok(())
}

#[test]
fn declarations_after_all_kinds_take_the_most(rt: HostRuntime) -> Result<(), Fail> {
    let text = text_of(rt.alloc(), ("x <?<!--<![CDATA[<!A", "<!", "", ""), 4_000)?;
    assert!(rt; steps_of(rt.alloc(), text.as_str(), Options::empty())? > text.len() as u128 * (MOST - 1));
    Ok(())
}
