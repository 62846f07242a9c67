"""Checks of the built program, of the keeper, of the pages. Each script has what it checks in its first lines; those of
Python are run from the top of the repository: `python3 -B -m checks.NAME`.
"""
