"""The runs of the program `birch`, by what they show."""
