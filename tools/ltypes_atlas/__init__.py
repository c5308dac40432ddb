"""The atlas of `ltypes` as values: a reader of its text, plain geometry, and what the commands of `atlas.py` do."""
