"""The tools over the client: the command `weltiyo`, whose tools `cli.py` finds by their names, and `weltiyo-lint`. They import the client,
and nothing of the client imports them."""
