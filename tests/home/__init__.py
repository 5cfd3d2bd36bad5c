"""Tests of the program at home on a machine: launcher, install, archive, gate and help."""
