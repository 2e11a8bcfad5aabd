"""The prover, called from scripts: the crates, the functions of a source file, must-fail edits, and checks of some functions."""
