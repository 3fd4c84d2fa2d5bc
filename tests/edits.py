"""Mistakes, each an edit of a crate that the prover must refuse, and how they are tried: many in one check.

An edit is a file of lines. `in: FUNCTION` names the function that has to be refused, as a check prints its name behind `fn` and the crate.
`file:` names a file of the crate, and each pair of `old:` and `new:` puts a text in the place of one that stands there once. `alone:` says
why no other mistake may stand in its check: it changes more than that function.

A function is proved by its own body and by what the others promise. So mistakes in the bodies of different functions do not meet, and one
check tries them all. Each has to be refused at a goal of its own function: a clause of its contract, an invariant, or what a call asks for.
That it calls a function which is refused does not count, nor does a name that is gone from its proof. A mistake that is not refused in
such a check is tried once more, alone, in the whole crate.

A check proves again what the functions call that it is asked for. So in it most other functions have a loop for a body, and a hole for a
proof: their contracts stay, and that is all that a caller's proof sees of them. Nothing that rests on a hole is proved, so without a mistake
a function would fall at no goal of its own, and would count as not refused.

All is done in a copy of the repository. There `rt ci` proves the crates first, or takes them over where it proved the same files before. The
checks are made over these libraries, by the same prover, and over what the checks of the same crate before them have proved."""

import json
import os
import re
import shutil
import subprocess
import sys
import tempfile
import time
from concurrent.futures import ThreadPoolExecutor
from dataclasses import dataclass, field
from pathlib import Path

from program import TOP

SOURCES = "src", "specs", "proofs"
GONE = r"has no field|is not in scope|has no `|was not admitted"  # of a name in a proof
SHOWN = 20  # lines of a check in which a mistake was not refused
HEAD = re.compile(r"(?m)^(?P<indent> *)(?:pub(?:\(crate\))? )?fn (?P<name>\w+)(?:<'\w+(?:, '\w+)*>)?\(")
OWNER = re.compile(r"impl(?:<'\w+>)? (\w+)(?:<'\w+>)? {")
BY_HAND = "Answers.antt", "Invariants.antt", "Proof.antt"  # what the proof of a function is written in
HOLE = """use Rattle.{crate}.proofs.{path}.Statement.{{statement}}

pub {name}_spec : {{M : Type 1}} → statement M
{name}_spec = ?
"""


@dataclass
class Mistake:
    """An edit of a crate."""

    name: str
    functions: list = field(default_factory=list)
    stands_alone: bool = False
    changes: list = field(default_factory=list)  # the file, the text that is there, and that in its place

    def put(self, folder):
        """Changes the files of a copy of the crate."""
        for file, old, new in self.changes:
            text = (folder / file).read_text()
            if text.count(old) != 1:
                raise ValueError(f"{old!r} stands {text.count(old)} times in {file}")
            (folder / file).write_text(text.replace(old, new))


def read(place):
    """The mistake that a file holds."""
    mistake, file, old = Mistake(place.stem), None, None
    for line in place.read_text().splitlines():
        key, _, value = line.partition(":")
        value = value.removeprefix(" ")
        match key:
            case "in":
                mistake.functions.append(value)
            case "alone":
                mistake.stands_alone = True
            case "file":
                file = value
            case "old":
                old = value
            case "new":
                mistake.changes.append((file, old, value))
            case _:
                sys.exit(f"{place}: a line that is not read: {line}")
    if not mistake.functions or not mistake.changes:
        sys.exit(f"{place}: it names no function, or changes nothing")
    return mistake


def in_checks(mistakes):
    """The mistakes of a crate by the check that tries them: no two of one function in the same."""
    checks = []
    for mistake in mistakes:
        fits = lambda other: not other.stands_alone and not set(other.functions) & set(mistake.functions)
        free = [it for it in checks if not mistake.stands_alone and all(map(fits, it))]
        if free:
            free[0].append(mistake)
        else:
            checks.append([mistake])
    return checks


def heads_of(file, text):
    """Where functions begin in a file, by the last two words of their names: the type or the module, and the function. Those of traits and
    of type parameters are left out."""
    for head in HEAD.finditer(text):
        owner = file.stem
        if head["indent"]:
            block = re.findall(r"(?m)^(?:impl|.*\btrait)\b.*$", text[: head.start()])[-1:]
            owner = next((it[1] for it in map(OWNER.fullmatch, block) if it), None)
        if owner:
            yield f"{owner}::{head['name']}", head


def without_body(text, head):
    """The text of a file in which a loop is the body of the function that begins there, in the form that `rt fmt` gives it. None where that
    function has no body, or belongs to a cycle of calls."""
    indent, behind = head["indent"], text[head.end() :]
    end = re.search(rf"(?m)^{indent}}}$", behind)
    whole = behind[: end.start()] if end else ""
    begin = re.search(rf"(?m)^{indent}{{\n", whole) or re.search(r" {\n", whole)
    if begin is None or HEAD.search(whole) or "#[cycle(" in text[: head.start()].rsplit("\n\n", 1)[-1]:
        return None
    return text[: head.end()] + whole[: begin.end()] + f"{indent}    loop {{}}\n" + behind[end.start() :]


def leave_out_others(folder, crate, functions, kept):
    """Takes the bodies and proofs of these functions, but for those that are kept, out of a copy of a crate, where a look at the text tells
    which they are."""
    for file in (folder / "src").rglob("*.rt"):
        text = file.read_text()
        for function in set(functions) - set(kept):
            last = "::".join(["lib", *function.split("::")][-2:])
            heads = [head for name, head in heads_of(file, text) if name == last]
            changed = without_body(text, heads[0]) if len(heads) == 1 else None
            if changed is not None:
                text = changed
                put_hole(folder, crate, function)
        file.write_text(text)


def put_hole(folder, crate, function):
    """Puts a hole for the proof of a function."""
    proof = folder / "proofs" / function.replace("::", "/")
    proof.mkdir(parents=True, exist_ok=True)
    for file in BY_HAND:
        (proof / file).unlink(missing_ok=True)
    (proof / "Proof.antt").write_text(HOLE.format(crate=crate, path=function.replace("::", "."), name=proof.name))


def taken(command, folder):
    """How a command ended in a folder, and what it said."""
    how = {"stdin": subprocess.DEVNULL, "stdout": subprocess.PIPE, "stderr": subprocess.STDOUT, "text": True, "errors": "replace"}
    done = subprocess.run(command, cwd=folder, check=False, **how)
    return done.returncode, done.stdout


class Crates:
    """Crates in a copy of the repository, with those below them, and the libraries that `rt ci` makes of them there."""

    def __init__(self, folder, wanted):
        self.folder = folder
        self.kit = Path(taken(["rt", "doc"], folder)[1].strip()).parent
        lines = {re.match(r"\w+", line)[0]: line for line in (TOP / "crates.txt").read_text().splitlines() if re.match(r"\w", line)}
        self.uses = {name: line.partition(":")[2].split() for name, line in lines.items()}
        copied = {it for name in wanted for it in [name, *self.below(name)]}
        for name in copied:
            self.copy_sources(TOP / "crates" / name, folder / "crates" / name)
        (folder / "crates.txt").write_text("".join(f"{line}\n" for name, line in lines.items() if name in copied))
        shutil.copy2(TOP / "HANDLES", folder)

    @staticmethod
    def copy_sources(crate, to):
        for part in SOURCES:
            if (crate / part).is_dir():
                shutil.copytree(crate / part, to / part)

    def below(self, name):
        """The crates that a crate stands on."""
        return list(dict.fromkeys(it for dep in self.uses[name] if dep in self.uses for it in [*self.below(dep), dep]))

    def prove(self):
        """Proves all, or takes over what was proved before."""
        status, said = taken(["rt", "ci"], self.folder)
        if status != 0:
            sys.exit(f"rt ci, in a copy: status {status}\n{said[-4000:]}")

    def functions(self, name):
        """The names of the functions of a crate, as a check prints them."""
        code = self.folder / "crates" / name / "out/rlib" / f"{name}.rlib" / "toolchain/mir.json"
        names = [it[0] for it in json.loads(code.read_text())]
        return [it.removeprefix(f"{name}::") for it in names if it.startswith(f"{name}::") and "+" not in it]

    def check(self, name, mistakes, kept, is_whole):
        """Checks the functions of these mistakes, which stand in a copy of the crate, over what is kept: what the check said. Unless the crate
        is to be whole, most of its other functions are left out."""
        rlibs = self.kit / "rlibs"
        folders = {it: self.folder / "crates" / it / "out/rlib" for it in self.below(name)}
        words = [f"--extern={it}={folders.get(it, rlibs)}/{it}.rlib" for it in ["std", *self.uses[name]]]
        words += [f"-Ldependency={it}" for it in [rlibs, *folders.values()]]
        words += [f"--antt-project={self.kit}/rattle/logic/antt-project.json", f"--logic-built={self.kit}/logic_built", f"--links={name}="]
        words += [f"--only={it}" for mistake in mistakes for it in mistake.functions]
        with tempfile.TemporaryDirectory(dir=self.folder) as room:
            self.copy_sources(self.folder / "crates" / name, Path(room))
            try:
                for mistake in mistakes:
                    mistake.put(Path(room))
            except ValueError as fault:
                return str(fault)
            if not is_whole:
                leave_out_others(Path(room), name, self.functions(name), [it for mistake in mistakes for it in mistake.functions])
            return taken([self.kit / "bin/rattle", "check", f"--crate-name={name}", "src/lib.rt", f"--incremental={kept}", *words], room)[1]


def goal_of(name, function, said, is_alone):
    """The goal of a function at which a check refused it, and whether its proof is written by hand; none where it told none."""
    ended = re.search(rf"(?m)^fn {name}::{re.escape(function)}: (.*)$", said)
    if ended is None or ended[1] == "proved":
        return None
    searched = re.findall(r"did not prove `([^`]*)`", ended[1])
    searched += re.findall(r"(?m)^note: src/\S+: it is not proved that .*?\(`([^`]*)`\)", said) if is_alone else []
    place = re.escape(f"./proofs/{function.replace('::', '/')}/")
    refused = [it for it in re.findall(rf"(?m)^{place}\S+: error: (.*)$", said) if not re.search(GONE, it)]
    by_hand = [f"{it.split('`')[1] if '`' in it else it}, proved by hand" for it in refused]
    return next(iter([*searched, *by_hand]), None)


def try_together(crates, name, mistakes, kept, is_whole=False):
    """Tries mistakes in one check: for each the goals at which it was refused, or none; and what the check said."""
    said = crates.check(name, mistakes, kept, is_whole)
    goals = [[goal_of(name, it, said, len(mistakes) == 1) for it in mistake.functions] for mistake in mistakes]
    return [None if None in it else it for it in goals], said


def try_crate(crates, name, mistakes):
    """Tries the mistakes of a crate. How many were refused, and what is to be told of the others."""
    refused, told, since = 0, [], time.monotonic()
    with tempfile.TemporaryDirectory(dir=crates.folder) as kept:
        for together in in_checks(mistakes):
            goals, said = try_together(crates, name, together, kept)
            for mistake, goal in zip(together, goals):
                if goal is None:
                    [goal], said = try_together(crates, name, [mistake], kept, is_whole=True)
                functions = " and ".join(mistake.functions)
                if goal is None:
                    told.append("\n".join([f"{name}/{mistake.name}: NOT REFUSED at a goal of {functions}", *said.splitlines()[:SHOWN]]))
                else:
                    refused += 1
                    print(f"{name}/{mistake.name}: refused, in {functions}, at {' and '.join(goal)}", flush=True)
    print(f"{name}: {refused} refused, in {len(in_checks(mistakes))} checks and {time.monotonic() - since:.0f} s", flush=True)
    return refused, told


def try_all(kind, names):
    """Tries the mistakes of a kind, which is the name of their folder, of the crates that are named or of all, crates side by side."""
    found = {it.parent.name: [read(edit) for edit in sorted(it.glob("*.edit"))] for it in TOP.glob(f"crates/*/{kind}")}
    lacking = [it for it in names if it not in found]
    if lacking:
        sys.exit(f"crates/{lacking[0]}/{kind} is not there")
    order = sorted(names or found, key=lambda name: -len(found[name]))
    with tempfile.TemporaryDirectory() as folder:
        crates = Crates(Path(folder), order)
        crates.prove()
        with ThreadPoolExecutor(len(os.sched_getaffinity(0))) as pool:
            ended = list(pool.map(lambda name: try_crate(crates, name, found[name]), order))
    told = [it for _, more in ended for it in more]
    for it in told:
        print(it)
    print(f"{kind}: {sum(it for it, _ in ended)} refused, {len(told)} not")
    sys.exit(1 if told else 0)
