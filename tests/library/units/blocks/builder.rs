// A document of one open and one closed node.

use cmark_builder::Builder;
use cmark_items::ItemBody;
use cmark_text::CowStr;
use std::test::Fail;

#[test]
fn nodes_are_closed_at_their_ends(rt: HostRuntime) -> Result<(), Fail> {
    let mut builder = Builder::new(rt.alloc(), 0)?;
    builder.open(0, ItemBody::BlockQuote(None))?;
    builder.open(2, ItemBody::Paragraph)?;
    let text = builder.allocations.allocate_cow(CowStr::Borrowed("a"))?;
    builder.add(2, 7, ItemBody::SynthesizeText(text))?;
    builder.close_as(12, ItemBody::Rule);
    builder.close(14);
    let (tree, allocations) = builder.finish();
    assert_eq!(rt; allocations[text].as_str(), "a");
    assert_eq!(rt; tree.spine_len(), 0);
    assert!(rt; tree.cur().is_some());
    if let Some(ix) = tree.cur() {
        let block_quote = *tree.item(ix);
        assert_eq!(rt; (block_quote.start, block_quote.end), (0, 14));
        assert!(rt; matches!(block_quote.body, ItemBody::BlockQuote(None)));
        assert!(rt; tree.child(ix).is_some());
    }
    Ok(())
}
