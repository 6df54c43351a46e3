"""The runs of the program `qm_search`, by what they show."""
