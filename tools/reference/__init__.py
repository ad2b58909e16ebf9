"""The machine once more, in Python: the texts, the rules, the order of one thread and the steps of the actors.

It is written from the rules alone, shares nothing with the crates, and takes the plain way where they take the fast one: lists are gone through, nothing
is proved. `tools/differ` has it answer the same inputs as the program.
"""
