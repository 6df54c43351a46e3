"""What tests/distributed_runs.py runs, each a program of its own: `python3 -m distributed_runs.NAME`."""
