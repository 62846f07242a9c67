"""Cases for the comparison: those that are meant for something, and those that a seed makes."""
