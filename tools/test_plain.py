"""Compares the built program with the plain model of a run, on small texts that are made up by a seed.

    python3 tools/test_plain.py crates/cello_main/out/cello_main [FIRST COUNT]

Ends with 'N passed, M failed'. A text on which they differ is shown.
"""

import os
import random
import subprocess
import sys
import tempfile

sys.path.insert(0, os.path.dirname(os.path.abspath(__file__)))
import plain_run  # noqa: E402

NAMES = ["gas", "dye", "ash"]
GREATEST = {"mass": 400, "slope": 900, "contrast": 300}


def triple(numbers):
    return "[" + ", ".join(map(str, numbers)) + "]"


def made_text(seed):
    """A text without faults: few trees, up to three levels, shapes, criteria, cycles and files."""
    draw = random.Random(seed)
    number, choice = draw.randint, draw.choice
    array = [number(1, 2) for _ in range(3)]
    edge, finest = choice([4, 4, 6]), number(0, 2)
    names = NAMES[:number(0, 3)]
    cells = [trees * edge for trees in array]
    text = f"Mesh {{ array = {triple(array)}; block = {edge}; max_level = {finest}; initial_rounds = {number(0, 3)}; "
    text += f'strict = "{choice(["no", "no", "no", "yes"])}"; max_blocks = {choice([8, 60, 4000, 4000])}; '
    kinds = (f'"{choice(["periodic", "open", "closed"])}"' for _ in range(3))
    text += f"boundary = [{', '.join(kinds)}]; }}\n"
    quoted = ", ".join(f'"{name}"' for name in names)
    text += f"Field {{ names = [{quoted}]; }}\nInitial {{\n"
    for shape in range(number(0, 4) if names else 0):
        text += f'  s{shape} {{ field = "{choice(names)}"; amount = {number(0, 3000)}; '
        low = [number(0, size) for size in cells]
        if draw.random() < 0.5:
            high = [begin + number(0, size) for begin, size in zip(low, cells)]
            text += f'shape = "box"; low = {triple(low)}; high = {triple(high)}; }}\n'
        else:
            text += f'shape = "ball"; center = {triple(low)}; radius = {number(0, 4)}; }}\n'
    text += "}\nAdapt {\n"
    for criterion in range(number(0, 3)):
        kind = choice(["box", "mass", "slope", "contrast"]) if names else "box"
        text += f'  c{criterion} {{ type = "{kind}"; until = {choice([1, 3, 8192])}; '
        if kind == "box":
            low = [number(0, size - 1) for size in cells]
            high = [begin + number(1, 3) for begin in low]
            text += f"low = {triple(low)}; high = {triple(high)}; level = {number(0, 3)}; }}\n"
        else:
            refine = number(0, GREATEST[kind])
            text += f'field = "{choice(names)}"; refine = {refine}; coarsen = {number(0, refine)}; }}\n'
    velocity = [choice([0, number(-5, 5)]) for _ in range(3)]
    least = sum(map(abs, velocity)) << finest
    den = max(1, least + number(0, 3))
    text += f"}}\nMethod {{ velocity = {triple(velocity)}; den = {den}; cycles = {number(0, 4)}; }}\n"
    return text + f"Output {{ mesh = {number(0, 2)}; fields = {number(0, 2)}; checkpoint = {number(0, 3)}; }}\n"


def answer(program, text):
    """What the program answers: report, fault line, status, and files."""
    with tempfile.TemporaryDirectory(prefix="cello-plain-") as room:
        done = subprocess.run([program, "solo"], input=text.encode(), capture_output=True, cwd=room, timeout=120)
        files = {}
        for name in os.listdir(room):
            with open(os.path.join(room, name), "rb") as file:
                files[name] = file.read()
    return done.stdout, done.stderr, done.returncode, files


def main():
    program = os.path.abspath(sys.argv[1])
    first, count = (int(word) for word in sys.argv[2:4] or (1, 24))
    passed = failed = 0
    for seed in range(first, first + count):
        text = made_text(seed)
        parts = zip(("report", "fault line", "status", "files"), plain_run.run(text), answer(program, text))
        differ = [name for name, expected, found in parts if expected != found]
        if differ:
            failed += 1
            print(f"differs in {', '.join(differ)}: seed {seed}\n{text}")
        else:
            passed += 1
    print(f"{passed} passed, {failed} failed")
    return failed > 0


if __name__ == "__main__":
    sys.exit(main())
