"""A second reading of what the program computes: each module writes one part of the pages in docs/ down again, over
whole lists, and shares no code with the program. What a line's form is comes from lab/grammar, which is such a
reading too.
"""
