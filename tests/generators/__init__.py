"""Generators of rows for the programs that play cases, by the plain model."""
