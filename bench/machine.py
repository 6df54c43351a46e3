"""On what figures were taken: the machine, the day, the commit, and the load."""

import os
import re
import subprocess
from datetime import date

ROOT = os.path.dirname(os.path.dirname(os.path.abspath(__file__)))


def git(*words):
    return subprocess.run(["git", "-C", ROOT, *words], capture_output=True, text=True, check=False).stdout.strip()


def machine():
    """The processor, the day, and the commit, with a word where the crates are not as it has them."""
    with open("/proc/cpuinfo", encoding="utf-8") as it:
        model = re.search(r"model name\s*: (.*)", it.read())
    today = date.today()
    changed = " with changes" if git("status", "--porcelain", "crates") else ""
    commit = git("rev-parse", "--short=8", "HEAD") or "unknown"
    day = f"{today.day} {today:%B} {today.year}"
    return f"{model[1] if model else 'unknown'}, {os.cpu_count()} processors; {day}; commit {commit}{changed}"


def load():
    """The load of the last minute, of five and of fifteen."""
    return ", ".join(f"{it:.1f}" for it in os.getloadavg())
