"""The commands that documents show, and the parts of ./test that run them. tests/shown runs most itself; those that prove, build, install or
measure stand in a list here, by the part that runs them. Such a part takes its commands from here. tests/shown looks whether each command
of each document is run by one or the other, and whether each that is listed is shown."""

import re

from program import DOCUMENTS, TOP

# The first words of commands. What stands alone, as the name of a tool, is none; but a script of the repository is, by its path.
TOOLS = set(
    "apt-get awk cargo cat cc cmp cp curl cut date diff docker find git grep head jq kill ln ls make man mandoc mkdir mv mvhub nice perf pip plain "
    "python3 rm rsync rt sed sha256sum sh sort split strace sudo tail tar tee timeout ulimit valgrind wc".split()
)
SCRIPT = r"(?:\./|tests/|bench/|build/|\.ci/)\w+"
USAGE = r"(?m)^(tests/\w+(?: [^ \n]+)*)(?=  |$)"  # in the head of a test; what stands in brackets may be left out

# What each part runs. The words in capitals, and the dots, stand for others.
RUN_BY = {
    "rt_ci": {"rt ci", "rt run", "rt test"},
    "first_call": {"./mvhub", "./mvhub ..", "build/program", "cp -a", "cp -r"},
    "first_answer": {"./mvhub try", "./mvhub try ..", "build/try", "rt try"},
    "developing": {
        "./test",
        "./test --quick",
        ".ci/run",
        "rt all check",
        "rt check",
        "rt check --only FILE::FUNCTION",
        "rt check --only expiry::Expiry::expired_at",
        "rt check --start FUNCTION --allow-holes",
        "rt ci CRATE",
        "rt doc",
        "rt lemma WORD..",
        "rt tidy",
        "tests/believed --crates",
        "tests/believed --files",
        "tests/mistakes CRATE",
        "tests/more_mistakes",
        "tests/more_mistakes CRATE",
        "tests/odd_lines --input SEED",
        "tests/odd_lines N",
        "tests/random_runs --input SEED",
        "tests/storms --long N",
    },
    "benches": {
        "apt-get install librust-serde-json-dev librust-rustc-hash-dev librust-itoa-dev librust-memchr-dev",
        "bench/run",
        "bench/run hostile",
        "bench/run hostile instructions",
        "bench/run instructions",
        "bench/run links",
        "bench/run most largest",
        "bench/run packs",
        "bench/run trail",
        "bench/run work",
        "plain canon",
        "plain steps",
        "plain work --turns N",
    },
}


ALONE = ["rt_ci", "mistakes"]  # the parts that have the processors for themselves


def parts():
    """The parts of ./test: those that run alone, and those that run side by side."""
    return [*ALONE, *re.search(r"(?ms)^parts=\((.*?)\)", (TOP / "test").read_text())[1].split()]


def commands_of(text):
    """The commands in the running text of a document, each once, with the blanks of one line."""
    text = re.sub(r"(?ms)^```.*?^```$", "", text)
    spans = [" ".join(span.split()).replace("\\|", "|") for span in re.findall(r"`([^`]+)`", text)]
    return [span for span in dict.fromkeys(spans) if is_command(span)]


def is_command(span):
    """Whether words that a document sets apart are a command."""
    first, *more = span.split()
    if re.fullmatch(SCRIPT, first):
        return not (TOP / first).is_dir()
    return first in TOOLS and more != []


def commands_of_heads():
    """The commands that the heads of the tests show."""
    for file in sorted((TOP / "tests").iterdir()):
        if file.is_file() and file.suffix == "":
            for usage in re.findall(USAGE, file.read_text()):
                yield re.sub(r" \[.*", "", usage)


def shown_commands():
    """All commands of the documents and of the heads of the tests."""
    return {command for file in DOCUMENTS for command in commands_of(file.read_text())} | set(commands_of_heads())


def runner_of(command):
    """The part that runs a command that is listed, or that is the name of a part; else None."""
    listed = [part for part, commands in RUN_BY.items() if command in commands]
    if listed:
        return listed[0]
    name = command.removeprefix("tests/")
    return name if command != name and name in parts() else None


def unlisted(run_here):
    """What is wrong with the lists: commands that no part runs, besides those for which `run_here` says so; those that nobody shows; and
    parts that are not there."""
    shown = shown_commands()
    for command in sorted(shown):
        if not run_here(command) and runner_of(command) is None:
            yield f"no part of ./test runs `{command}`"
    for part, commands in RUN_BY.items():
        if part not in parts():
            yield f"tests/commands.py: {part} is no part of ./test"
        for command in sorted(commands - shown):
            yield f"tests/commands.py: no document shows `{command}`"
