"""The written definitions of inlines in Python: each function has the name of its definition in crates/cmark_grammar/specs.

Texts are bytes, and offsets are offsets of the source. Callbacks are left out, since no program has them.
"""
