"""The definitions of blocks, written a second time as a reader of lines: by CommonMark and docs/GRAMMAR.md, without a look at the code.

`openings` recognizes the start of a block by the bytes of a line, `reading` goes from line to line, `writing` makes events of the blocks,
and `texts` makes random texts. The spans of a leaf are not part of it: they are in `tests/grammar/inlines`.
"""
