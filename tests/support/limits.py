"""The limits of the program, as the pages state them."""

from __future__ import annotations

# Bytes of a text and of a document.
TEXT = 4_194_304
DOCUMENT = 25_165_824

# The ends of the options.
UNTIL = 2**48
EVENTS = 2**40
SEED = 2**64 - 1
ROOM = 4_194_304
RUNS = 65_536

# Parts of a model.
VARIABLES = 2_000
VERTICES = 2_000
CELLS = 65_536
ALL_CELLS = 2**24
PARAMETERS = 16
CHANGES = 1_000
EDGES = 1_000
TABLES = 100
ROWS = 1_000

REPORT = "run,seed,outcome,time,item,least,greatest,last,area,count\n"
