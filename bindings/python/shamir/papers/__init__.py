"""The owner's day in a terminal: papers of a backup are made, checked, recovered from and replaced, step by step.

`shamir-papers` and `python3 -m shamir.papers` ask at a terminal. The library decides which words are right, why a paper is
refused, what is complete, and what a quorum gives. The modules here ask, show, and count. Their sentences are those of the page:
`texts.py` reads the page's table.

The package needs Python 3.10 or later, and nothing beyond Python's own library.
"""
