"""Runs texts by workers, again and again, and compares all that they write with what one thread writes.

    python3 tools/soak_workers.py PROGRAM COUNT TEXT..

Each time it takes one of the texts and a number of workers from 2 to 16, both at random. Standard output, standard
error, status and files have to be those of `solo`. Ends with 'N passed, M failed'.
"""

import os
import random
import subprocess
import sys
import tempfile


def answer(words, text):
    """All that a run of the program answers and writes."""
    with tempfile.TemporaryDirectory() as folder:
        run = subprocess.run(words, stdin=open(text, "rb"), cwd=folder, capture_output=True)
        files = {name: open(os.path.join(folder, name), "rb").read() for name in os.listdir(folder)}
    return run.stdout, run.stderr, run.returncode, files


def main():
    program = os.path.abspath(sys.argv[1])
    texts = [os.path.abspath(text) for text in sys.argv[3:]]
    alone = {text: answer([program, "solo"], text) for text in texts}
    passed = failed = 0
    for _ in range(int(sys.argv[2])):
        text, workers = random.choice(texts), random.randint(2, 16)
        if answer([program, "run", "--workers", str(workers)], text) == alone[text]:
            passed += 1
        else:
            failed += 1
            print(f"differs: {text} by {workers} workers")
    print(f"{passed} passed, {failed} failed")
    return failed > 0


if __name__ == "__main__":
    sys.exit(main())
