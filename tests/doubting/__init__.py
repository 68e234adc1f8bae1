"""The parts of tests/doubts: a small tree, and what is made wrong in it."""
