"""The pages against the sources: what they name, quote, link to and say of the program's texts."""
