#!/usr/bin/env python3
"""Measures how many bytes a posting takes.

    python3 bench/measure_segment.py [PROGRAM]

It writes 100,000 documents of 50 words out of 20,000 to the program, ends the segment, and asks the
program how many bytes it holds then. A posting is a word and a document that holds it. The bytes
are those of the whole program, so of the words and of the length ids too.
"""

import os
import random
import signal
import subprocess
import sys
import tempfile
import time

HERE = os.path.dirname(os.path.abspath(__file__))
PROGRAM = os.path.join(HERE, "..", "crates", "qm_search", "out", "qm_search")
COUNTER = os.path.join(HERE, "..", "tests", "native", "live_memory.c")
DOCUMENTS, WORDS, VOCABULARY = 100_000, 50, 20_000


def start(room):
    counter = os.path.join(room, "live_memory.so")
    subprocess.run(["cc", "-O2", "-shared", "-fPIC", "-o", counter, COUNTER], check=True)
    return subprocess.Popen(
        [sys.argv[1] if len(sys.argv) > 1 else PROGRAM],
        stdin=subprocess.PIPE,
        stdout=subprocess.PIPE,
        stderr=subprocess.PIPE,
        env=dict(os.environ, LD_PRELOAD=counter),
    )


def live_bytes(program):
    time.sleep(1)
    program.send_signal(signal.SIGUSR1)
    return int(program.stderr.readline())


def main():
    chance = random.Random(1)
    lines, postings = [], 0
    for _ in range(DOCUMENTS):
        words = [f"w{chance.randrange(VOCABULARY)}" for _ in range(WORDS)]
        postings += len(set(words))
        lines.append("doc " + " ".join(words) + "\n")
    script = "".join(lines).encode()
    with tempfile.TemporaryDirectory() as room, start(room) as program:
        empty = live_bytes(program)
        program.stdin.write(script)
        # more empty answers than the program's buffer holds, so that the first are seen
        program.stdin.write(b"segment\n" + 20_000 * b"docs none\n")
        program.stdin.flush()
        program.stdout.read(8192)
        held = live_bytes(program) - empty
        program.stdout.close()
        program.stdin.close()
        program.kill()
    print("| Postings | Bytes a posting |\n|---|---|")
    print(f"| {postings:,} | {held / postings:.2f} |")


if __name__ == "__main__":
    sys.exit(main())
