"""Tests of the program: calls of it, with what they must answer."""
