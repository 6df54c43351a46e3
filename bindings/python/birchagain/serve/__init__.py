"""A page that searches the text files of a folder, by `python -m birchagain serve`. docs/SERVE.md leads through it."""
