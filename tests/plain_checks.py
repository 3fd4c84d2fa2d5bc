"""What `mvhub canon`, `mvhub canon --check` and `mvhub steps --strict` say, by the plain machine, as docs/FORMATS.md says.

As a program it checks the messages of its standard input, as `mvhub canon --check` would: `python3 tests/plain_checks.py < FILE`.
"""

import sys

from plain_lines import Refused, json_of, message, reply_text
from plain_state import message_value


def lines_of(given):
    """The lines of an input that are not empty, each with its number: lines are counted from one, and empty ones too."""
    lines = [line.removesuffix(b"\r") for line in given.split(b"\n")]
    return [(number, line) for number, line in enumerate(lines, start=1) if line]


def canonical(line):
    """The canonical value of the message that a line is, or the refusal of its first fault."""
    try:
        return message_value(message(None, json_of(line)))
    except Refused as refused:
        return refused.reply


def refusals(given):
    """The refusals of the messages of an input, each with the number of its line."""
    written = []
    for number, line in lines_of(given):
        try:
            message(None, json_of(line))
        except Refused as refused:
            written.append(reply_text({**refused.reply, "line": number}))
    return written


def is_not_taken(reply):
    """Whether a reply refuses a line by an M, C, H or O, or by S14."""
    return "refused" in reply and (reply["refused"][0] in "MCHO" or reply["refused"] == "S14")


def strict_text(given, replies):
    """What stands on standard error behind a strict run over an input with these replies: nothing where each line was taken."""
    places = [number for (number, _), reply in zip(lines_of(given), replies, strict=True) if is_not_taken(reply)]
    return f"mvhub: lines not taken: {len(places)}, the first: {places[0]}\n".encode() if places else b""


if __name__ == "__main__":
    sys.stdout.buffer.writelines(refusals(sys.stdin.buffer.read()))
