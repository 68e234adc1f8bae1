"""The parts of tests/believe, from the words of a text to the pages that are checked."""
