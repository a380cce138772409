"""What the Python scripts share: the marks of document 01, and asking the oracle."""

import json
import subprocess
import sys
from pathlib import Path

NO_NODE = 2**32 - 1
NO_WEIGHT = 2**64 - 1
MAX_SUM = 2**40

MADE = Path(__file__).resolve().parent.parent / "target/oracle"
CHANGED = Path(__file__).resolve().parent / "changed.json"


def stop(why):
    print(f"{sys.argv[0]}: {why}", file=sys.stderr)
    sys.exit(2)


def write(cases, out=sys.stdout):
    for case in cases:
        out.write(json.dumps(case) + "\n")


def as_changed(path, cases):
    """The cases of a file, by its name, with the answers that a later request changed (changed.json, lines from 1)."""
    for line, answer in json.loads(CHANGED.read_text()).get(Path(path).name, {}).items():
        cases[int(line) - 1].update({field: value for field, value in answer.items() if field != "because"})
    return cases


def read(path):
    try:
        with open(path) as lines:
            return as_changed(path, [json.loads(line) for line in lines])
    except OSError as why:
        stop(f"{path}: {why.strerror}")
    except ValueError as why:
        stop(f"{path}: {why}")


def need(name="oracle"):
    if not (MADE / name).exists():
        stop(f"{MADE / name} is missing; oracle/build{' --beside' * (name == 'beside')} makes it")
    return MADE / name


def answers(cases, *flags):
    """The cases with their answers: the oracle's, or with --proved those of the proved code. A complaint has been printed."""
    binary = need("beside" if "--proved" in flags else "oracle")
    text = "".join(json.dumps(case) + "\n" for case in cases)
    run = subprocess.run([binary, "answer", *flags], input=text, stdout=subprocess.PIPE, text=True)
    if run.returncode != 0:
        sys.exit(2)
    return [json.loads(line) for line in run.stdout.splitlines()]
