"""The events of a run, as `mvhub trail` writes them, by the plain machine, as docs/FORMATS.md says.

As a program it takes what `mvhub steps` takes: `python3 tests/plain_trail.py < examples/recall.jsonl`.
"""

import sys

from plain_lines import Session, reply_text
from plain_machine import Receipt
from plain_state import message_value


def event_of(session, number, line):
    """The event of a line, which the session takes; nothing where it has none."""
    taken, reply = len(session.steps), session.reply(line)
    if "opened" in reply:
        return {"event": "opened", "line": number, **opening_of(session.machine)}
    if len(session.steps) == taken:
        return None
    task, asked, _ = session.steps[-1]
    event = EVENTS[task](session.machine, asked, reply) if task in EVENTS else None
    return event and {"line": number, **event}


def opening_of(machine):
    """The parties and the limits of a system."""
    sizes = {"submissions": machine.submissions, "uplink": machine.uplink, "window": machine.window, "wire": machine.wire_limit}
    return {"parties": machine.parties, **sizes}


def submitted(machine, asked, reply):
    """A message was submitted."""
    if "submitted" not in reply:
        return None
    sent = {"from": asked["from"], "k": reply["submitted"], "message": message_value(asked["message"])}
    return {"event": "submitted", **sent}


def asked_or_verified(machine, asked, reply):
    """The others were asked about a pack, or the party's own repository had a verdict on it."""
    about = {"gtin": asked["gtin"], "party": asked["party"], "serial": asked["serial"]}
    if "asked" in reply:
        return {"event": "asked", "q": reply["asked"], **about}
    return {"event": "verified", **about, **reply} if "verdict" in reply else None


def routed(machine, asked, reply):
    """A message was routed: the last entry of the record is that of its routing."""
    if "routed" not in reply:
        return None
    entry, sent = machine.record[-1], {"from": asked["from"], "k": reply["routed"], "reach": reply["reach"]}
    return {"event": "routed", **sent, "message": message_value(entry.message), "stamp": len(machine.record)}


def applied(machine, asked, reply):
    """An item was applied: the last entry of the log of who applied it."""
    if "applied" not in reply:
        return None
    done = {name: value for name, value in reply.items() if name != "applied"}
    _, item = machine.logs[asked["to"]][-1]
    event = {"event": "applied", "from": asked["from"], "k": item.k, "number": reply["applied"], "to": asked["to"], **done}
    if isinstance(item, Receipt):
        return {**event, "query": item.query, "reach": item.reach}
    return {**event, "message": message_value(item.message), "stamp": item.stamp}


def closed(machine, asked, reply):
    """A link was closed: the last entry of the record says so."""
    if "closed" not in reply:
        return None
    return {"event": "closed", "from": asked["from"], "stamp": len(machine.record), "to": asked["to"]}


def decided(machine, asked, reply):
    """All that were asked about a pack have answered, and there is a verdict."""
    if reply.get("verdict") not in ("authentic", "not authentic"):
        return None
    query = machine.submitted[asked["party"]][asked["q"] - 1]
    about = {"gtin": query["gtin"], "party": asked["party"], "q": asked["q"], "serial": query["serial"]}
    return {"event": "verdict", **about, **reply}


EVENTS = {
    "submit": submitted,
    "verify": asked_or_verified,
    "route": routed,
    "apply": applied,
    "close": closed,
    "verdict": decided,
}


def trail(given):
    """The events of an input, each with its line feed."""
    session = Session()
    for number, line in enumerate(given.split(b"\n"), 1):
        line = line.removesuffix(b"\r")
        event = event_of(session, number, line) if line else None
        if event:
            yield reply_text(event)


if __name__ == "__main__":
    sys.stdout.buffer.writelines(trail(sys.stdin.buffer.read()))
