"""Benches: what things cost and how accurate they are. Each script has what it measures in its first lines; those of
Python are run from the top of the repository: `python3 -B -m bench.NAME`.
"""
