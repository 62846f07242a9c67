"""What developers call: the page HEADLINE from the definitions, and how large and how tangled the sources are. Run from
the top of the repository: `python3 -B -m dev.NAME`.
"""
