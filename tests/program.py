"""What the tests of the built programs share: where they are, the examples and the words that these are given by, runs and how they end,
and the libraries that break a run."""

import os
import subprocess
import sys
from pathlib import Path

TOP = Path(__file__).resolve().parent.parent
EXAMPLES = TOP / "examples"
PAGES = [TOP / "README.md", *(TOP / it / "README.md" for it in ("examples", "bench/plain")), *sorted((TOP / "crates").glob("*/README.md"))]
DOCUMENTS = [*sorted((TOP / "docs").rglob("*.md")), *PAGES]
PROGRAM = TOP / "crates/mvhub/out/mvhub"
WHOLE_RUNS = TOP / "crates/whole_runs/out/whole_runs"
SHORT_EXAMPLES = {
    "steps": EXAMPLES / "malformed-lines.jsonl",
    "canon": EXAMPLES / "canon-masters.jsonl",
    "work": EXAMPLES / "work-plan.jsonl",
    "show": EXAMPLES / "show-what-stands.jsonl",
}
NO_JSON = b'{"refused":"M1"}\n'
NO_OBJECT = b'{"refused":"M2"}\n'
NOT_OPEN = b'{"refused":"C1"}\n'
UNREAD = b"mvhub: V1\n"
UNWRITTEN = b"mvhub: V2\n"
MANY_TURNS = "1000000"  # in which each plan of examples/ is finished that can be
SECONDS = 60  # that a run may take


def words_of(example):
    """The words by which the program is given an example: how its name begins says the task, and how that of a plan ends the turns."""
    for task in "canon", "show":
        if example.stem.startswith(task):
            return [task]
    if example.stem.startswith("work"):
        return ["work", "--turns", "0" if example.stem.endswith("unturned") else MANY_TURNS]
    return ["steps"]


def replies_of(example):
    """What the program has to write to an example."""
    return example.with_suffix(".expected").read_bytes()


def run(words, stdout=subprocess.PIPE, **more):
    """Runs the program on words: its status, and what it wrote and told."""
    return subprocess.run([PROGRAM, *words], stdout=stdout, stderr=subprocess.PIPE, timeout=SECONDS, check=False, **more)


def expect(words, what, done, status, output, told):
    """Ends the test where a run did not end so."""
    if (done.returncode, done.stdout, done.stderr) != (status, output, told):
        sys.exit(f"mvhub {' '.join(words)}: {what}: status {done.returncode}, {done.stdout!r}, {done.stderr!r}")


def built_library(name, folder):
    """The library of this name, built in a folder from its source in tests/."""
    library = folder / f"{name}.so"
    subprocess.run(["cc", "-shared", "-fPIC", "-o", library, TOP / "tests" / f"{name}.c", "-ldl"], check=True)
    return library


def environment_with(library, **settings):
    """The environment of a run that a library breaks: what it is told stands in variables, whose names are in capitals."""
    told = {name.upper(): str(value) for name, value in settings.items()}
    return {**os.environ, "LD_PRELOAD": str(library), **told}
