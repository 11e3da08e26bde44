"""Inputs for the makers of stored answers, for fuzz and for bench, the same each time: trees at the edges of every rule, accepted trees, leaves,
texts and rows. What the right answers are is not said here but in tools/model."""
