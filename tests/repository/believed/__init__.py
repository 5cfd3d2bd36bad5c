"""What has to be believed for the clauses of `sigma` and `program`.

That is each definition that they name, those that its type and its body name, and so on, with the
types and constants of the code among them. `sources` reads the definitions, `reach` follows their
names, and `lists` compares what was reached with the lists of a page.

A line counts that is neither blank nor an import. A comment counts with the definition that follows
it; the head of a module, and a heading in it, with the module, if some of that has to be believed.
"""
