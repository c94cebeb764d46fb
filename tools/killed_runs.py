"""Kills runs at random moments, and goes on from the newest checkpoint of each.

    python3 tools/killed_runs.py PROGRAM TEXT [COUNT]

Runs the text once to its end. Then, so many times, it runs the text in a folder of its own and kills it (`kill -9`). Every
file under a name of its own has to be the whole run's file of that name, and after `resume` from the newest checkpoint
the folder has to hold exactly the whole run's files. Ends with 'N passed, M failed'.
"""

import os
import random
import re
import subprocess
import sys
import tempfile
import time


def files(folder):
    """The files that have their own names, with their bytes; one that was being written has a suffix."""
    names = [name for name in os.listdir(folder) if not name.endswith(".unfinished")]
    return {name: open(os.path.join(folder, name), "rb").read() for name in names}


def differing(found, whole):
    return sorted(name for name in found if found[name] != whole.get(name))


def main():
    program, text = (os.path.abspath(path) for path in sys.argv[1:3])
    count = int(sys.argv[3]) if len(sys.argv) > 3 else 100
    with tempfile.TemporaryDirectory() as folder:
        began = time.monotonic()
        report = subprocess.run([program, "solo"], stdin=open(text, "rb"), cwd=folder, capture_output=True, check=True).stdout
        took = time.monotonic() - began
        whole = files(folder)
    last = re.findall(rb"^cycle (\d+)", report, re.M)[-1].decode()
    passed = ended = unkept = 0
    for number in range(count):
        with tempfile.TemporaryDirectory() as folder:
            run = subprocess.Popen([program, "solo"], stdin=open(text, "rb"), cwd=folder, stdout=subprocess.DEVNULL)
            time.sleep(random.uniform(0, took))
            run.kill()
            ended += run.wait() == 0
            wrong = differing(files(folder), whole)
            states = sorted(name for name in files(folder) if re.fullmatch(r"state-\d{4}\.cello", name))
            if states:
                words = [program, "resume", states[-1], "--until", last]
                run = subprocess.run(words, cwd=folder, stdin=subprocess.DEVNULL, stdout=subprocess.DEVNULL)
                wrong += [] if run.returncode == 0 else [f"resume ends with {run.returncode}"]
                wrong += [name for name in whole if name not in files(folder)] + differing(files(folder), whole)
            unkept += not states
        passed += not wrong
        if wrong:
            print(f"run {number}: {', '.join(wrong)}")
    print(f"{ended} runs ended before they were killed, {unkept} had no checkpoint yet")
    print(f"{passed} passed, {count - passed} failed")
    return passed != count


if __name__ == "__main__":
    sys.exit(main())
