"""Tries the model against worked rows (`worked_rows.py`); the status is 1 where one differs."""

import sys

from model.worked_rows import differences

found = list(differences())
print("\n".join(found) if found else "the model answers the worked rows")
sys.exit(1 if found else 0)
