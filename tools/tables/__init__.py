"""What the programs crates/try_* and crates/own_* are to print, by the rules in words: each file writes the `stdout` of
the crate of its name, or a part of it."""
