"""How a run over lines ends, by the plain machine, as docs/FORMATS.md says: its status, what it writes, and what it tells on standard error.

The words are those of `mvhub steps`, `trail`, `show` and `canon`, with their options.
"""

import functools
import json

from plain_checks import canonical, lines_of, refusals, strict_text
from plain_lines import Session, reply_text, take
from plain_shown import shown_by
from plain_trail import trail

TRAIL, SHOW, CHECK, STRICT = ("trail",), ("show",), ("canon", "--check"), ("steps", "--strict")


@functools.cache
def end_of(words, given):
    """The status of a run by these words over an input, what it writes and what it tells."""
    if words == CHECK:
        written = b"".join(refusals(given))
        return (1 if written else 0), written, b""
    if words == TRAIL:
        return 0, b"".join(trail(given)), b""
    if words == ("canon",):
        return 0, b"".join(reply_text(canonical(line)) for _, line in lines_of(given)), b""
    session = Session()
    replies = take(session, given)
    if words == SHOW:
        shown, status = shown_by(session)
        return status, b"".join(map(reply_text, shown)), b""
    return strict_end(given, replies) if words == STRICT else (0, b"".join(replies), b"")


def strict_end(given, replies):
    """The same of a strict run that has these replies."""
    told = strict_text(given, map(json.loads, replies))
    return (1 if told else 0), b"".join(replies), told
