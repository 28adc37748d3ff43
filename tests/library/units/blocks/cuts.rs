// The last cut of a text: which lines are cuts, that the search continues after an earlier cut, and how much of a growing text is read.

use bitflags::Flags;
use cmark_blocks::last_cut;
use cmark_values::Options;
use std::alloc::{AllocError, Global};
use std::test::Fail;

// Texts with their last cut.
const CUTS: &[(&str, usize)] = &[
    ("", 0),
    ("a\n", 0),
    // after a blank line
    ("a\n\nb\n\nc\n", 3),
    ("a\n\nb\n\nc\n\n", 6),
    // in a paragraph, and where one is interrupted
    ("a\nb\n\n", 0),
    ("a\n# b\n\n", 2),
    ("a\n> b\n\n", 2),
    ("a\n***\n\n", 2),
    ("a\n---\n\n", 0),
    ("a\n```\nb\n", 2),
    // after a closed block
    ("# a\nb\n\n", 4),
    ("***\nb\n\n", 4),
    ("```\na\n\nb\n```\nc\n\n", 13),
    ("<div>\na\n\nb\n\n", 9),
    // in an open block
    ("```\na\n\nb\n\n", 0),
    ("<!--\na\n\nb\n\n", 0),
    ("    a\n\n    b\n\n", 0),
    ("> a\nb\n\n", 0),
    ("> a\n> # b\n", 0),
    // lists
    ("- a\n- b\n\n", 0),
    ("- a\n\n- b\n\n", 0),
    ("- a\nb\n\n", 0),
    ("- a\n  ```\n  b\n  ```\n\n  c\n\n", 0),
    ("- a\n\nb\n\n", 5),
    ("- a\n# b\n\n", 4),
    ("a\n\n- b\n\n", 3),
    ("- a\n\nb\n\n- c\n\n", 8),
    ("1. a\n\n   b\n\nc\n\n", 12),
    // definitions and tables
    ("[a]: b\nc\n\n", 0),
    ("[a]: b\n\nc\n\n", 8),
    ("a|b\n-|-\nc|d\n\ne\n\n", 13),
    ("a\n|b|\n\n", 0),
    ("a\n\n[b](c)\n\n", 3),
];

#[test]
fn texts_have_cuts(rt: HostRuntime) -> Result<(), Fail> {
    for (text, cut) in CUTS {
        assert_eq!(rt; last_cut(rt.alloc(), text, 0, Options::GITHUB)?, *cut);
    }
    Ok(())
}

// Texts with the last cut if metadata between lines of `---` is read.
const METADATA: &[(&str, usize)] = &[
    ("a\n\nb\n\nc\n\n", 6),
    // metadata whose end has come
    ("---\na: b\n---\nc\n\n", 13),
    ("---\na: b\n...\nc\n\nd\n\n", 16),
    ("---\na: b\n\nc\n---\n# d\n\n", 16),
    ("a\n\n---\nb\n\nc\n---\nd\n\n", 16),
    // metadata whose end may still come
    ("---\na: b\n\nc\n\n", 0),
    ("---\n# a\n\nb\n\n", 0),
    ("a\n\n---\nb\n\nc\n\n", 3),
    ("a\n\n---\nb\n\n***\n\n", 3),
    ("---\n---\na\n\n", 0),
    // lines that begin no metadata, whatever follows
    ("---\n\na\n\n", 5),
    ("---\n---\n\na\n\n", 9),
    ("a\n---\nb\n\n", 6),
    ("```\n---\n```\na\n\n", 12),
    ("> ---\na\n\n", 6),
    ("- ---\n\na\n\n", 7),
    (" ---\na\n\n", 5),
    ("----\na\n\n", 5),
    ("+++\n# a\n\n", 4),
];

#[test]
fn lines_that_may_begin_metadata_bar_cuts(rt: HostRuntime) -> Result<(), Fail> {
    for (text, cut) in METADATA {
        assert_eq!(rt; last_cut(rt.alloc(), text, 0, Options::ENABLE_YAML_STYLE_METADATA_BLOCKS)?, *cut);
    }
    let pluses = Options::ENABLE_PLUSES_DELIMITED_METADATA_BLOCKS;
    assert_eq!(rt; last_cut(rt.alloc(), "+++\n# a\n\n", 0, pluses)?, 0);
    assert_eq!(rt; last_cut(rt.alloc(), "+++\na\n+++\nb\n\n", 0, pluses)?, 10);
    assert_eq!(rt; last_cut(rt.alloc(), "a\n+++\n\nb\n\n", 0, pluses)?, 7);
    Ok(())
}

// Texts with the last cut if definition lists are read.
const TERMS: &[(&str, usize)] = &[
    ("a\n\nb\n\nc\n\n", 6),
    ("# a\nb\n\n", 4),
    // a definition makes the paragraph before it a title
    ("a\n: b\n\n", 0),
    ("a\n\n: b\n\n", 0),
    ("a\n\nb\n\n: c\n\n", 3),
    // a paragraph after a definition may be the next title
    ("a\n: b\n\nc\n\n", 0),
    ("a\n: b\n\nc\n\nd\n\n", 10),
    ("a\n: b\n\nc\n: d\n\n", 0),
    ("a\n: b\n\n# c\n\n", 7),
    ("a\n: b\n\n> c\n\n", 7),
    ("a\n: b\n\n***\nc\n\n", 11),
    // the search does not tell definition lists from others
    ("- a\n\nb\n\n", 0),
    ("- a\n\nb\n\nc\n\n", 8),
    ("- a\n\n# b\n\n", 5),
    ("a\n\n- b\n\n", 3),
];

#[test]
fn definitions_bar_cuts(rt: HostRuntime) -> Result<(), Fail> {
    for (text, cut) in TERMS {
        assert_eq!(rt; last_cut(rt.alloc(), text, 0, Options::ENABLE_DEFINITION_LIST)?, *cut);
    }
    Ok(())
}

const DOCUMENT: &str = "# Bread

Flour, water and salt, *and time*. See [the page](https://example.org/bread) for more, or ask
someone who bakes.

1. Mix the flour and the water.

   ```
   knead 10
   ```

2. Wait for an hour.
3. Bake it.

| Flour | Water |
|-------|-------|
| 500 g | 350 g |

> Bread is a friend.
> It waits.

```rust
fn main() {

    println!(\"bread\");
}
```

- salt
- water

***

[page]: https://example.org/bread

";

// The number of bytes that the searches look at if the text grows by `chunk` bytes at a time, and each search continues after the last cut.
fn bytes_read(alloc: Global, text: &str, chunk: usize, options: Options) -> Result<usize, AllocError> {
    let mut from = 0;
    let mut size = 0;
    let mut read = 0;
    while size < text.len() {
        size = if text.len() - size < chunk { text.len() } else { size + chunk };
        let Some(now) = text.get(..size) else {
            continue;
        };
        read += size - from;
        from = last_cut(alloc, now, from, options)?;
    }
    Ok(read)
}

#[test]
fn the_search_continues_after_a_cut(rt: HostRuntime) -> Result<(), Fail> {
    let mut from = 0;
    for size in 0..DOCUMENT.len() + 1 {
        let now = &DOCUMENT[..size];
        from = last_cut(rt.alloc(), now, from, Options::GITHUB)?;
        assert_eq!(rt; last_cut(rt.alloc(), now, 0, Options::GITHUB)?, from);
    }
    Ok(())
}

#[test]
fn a_growing_document_is_read_a_few_times(rt: HostRuntime) -> Result<(), Fail> {
    let mut text = String::from_str(rt.alloc(), "---\ntitle: Bread\n---\n\n")?;
    for _ in 0..20 {
        text.push_str(DOCUMENT)?;
    }
    let read = bytes_read(rt.alloc(), text.as_str(), 20, Options::GITHUB)?;
    println!(rt; "{} bytes read of {}", read, text.len())?;
    assert!(rt; read <= 8 * text.len());
    let all = bytes_read(rt.alloc(), text.as_str(), 20, Options::all())?;
    println!(rt; "{} bytes read of {}, with all options", all, text.len())?;
    assert!(rt; all <= 8 * text.len());
    Ok(())
}
