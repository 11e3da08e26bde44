"""The cases that the gate runs the programs on, and tests of the programs."""
