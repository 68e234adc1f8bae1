"""The parts of tests/release: what is counted, and bare Debians in folders."""
