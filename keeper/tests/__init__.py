"""Tests of the keeper over fakes: `python3 -B -m unittest discover -s keeper/tests -t .` at the top
of the repository."""
