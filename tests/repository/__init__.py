"""Tests of the repository: its crates, pages, examples and scripts."""
