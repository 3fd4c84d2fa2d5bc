"""What the random runs and the storms share: they give a program an input, and look where what it writes is not what is expected."""

import subprocess
import sys
from itertools import zip_longest


def written_by(words, given):
    """What a program writes to an input."""
    done = subprocess.run(words, input=given, capture_output=True, check=False)
    if done.returncode != 0:
        sys.exit(f"{' '.join(map(str, words))}: status {done.returncode}\n{done.stderr.decode()}")
    return done.stdout


def first_difference(expected, written):
    """The place of the first line that was not written as expected, and both, in words; none where there is none."""
    lines = written.splitlines(keepends=True)
    for place, (wanted, line) in enumerate(zip_longest(expected, lines, fillvalue=b"nothing")):
        if wanted != line:
            return place, f"the plain machine: {wanted.decode().strip()}\nthe program: {line.decode(errors='replace').strip()}"
    return None


def name_of(task, reply):
    """What a reply is counted as."""
    for key in ("fault", "refused", "effect"):
        if key in reply:
            return reply[key]
    if "verdict" in reply:
        where = "local" if task == "verify" else "joint"
        return " ".join([where, reply["verdict"], str(reply.get("falsification", ""))]).strip()
    names = ("opened", "submitted", "asked", "routed", "relayed", "repeated", "old", "gap", "closed", "lost")
    return next(name for name in names if name in reply)
