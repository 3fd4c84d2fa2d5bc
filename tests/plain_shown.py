"""The lines of `mvhub show`, written by the plain machine, as docs/FORMATS.md says.

As a program it takes an input of `mvhub steps`, and writes what stands when it ends:
`python3 tests/plain_shown.py < examples/recall.jsonl`.
"""

import subprocess
import sys

from comparing import first_difference
from plain_lines import Session, reply_text, take
from plain_machine import Carried, Routed, counts_of, in_order, is_recalled, is_withdrawn, pack_of, product_of
from plain_state import date_text, message_value, note_once, pairs_of

NOT_OPEN = {"refused": "C1"}


def named_in(message, kind):
    """What a message names of a kind: products, batches that it recalls, or packs, each by its product code and number."""
    gtin, named_by = message.get("gtin"), message["msg"]
    if kind == "product":
        return [gtin] if named_by in ("master", "withdraw") else []
    if kind == "recall":
        return [(gtin, message["batch"])] if named_by == "recall" else []
    return [(gtin, serial) for serial in message["serials"]] if named_by == "upload" else []


def named_of(log, kind):
    """All of a kind that the carried items of a log name, each once, in the order of first naming."""
    named = []
    for _, item in log:
        if isinstance(item, Carried):
            for name in named_in(item.message, kind):
                note_once(named, name)
    return named


def party_line(machine, party):
    """How much a party has: its five counts, and how many messages it submitted, and how many of them were routed."""
    counts = counts_of(machine.logs[party])
    return {
        "active": counts["active"],
        "applied": counts["entries"],
        "packs": counts["packs"],
        "party": party,
        "products": counts["products"],
        "recalled": counts["recalled"],
        "routed": len([entry for entry in machine.record if isinstance(entry, Routed) and entry.sender == party]),
        "show": "party",
        "submitted": len(machine.submitted[party]),
    }


def product_line(party, gtin, entries):
    """A product: its master with the greatest stamp, if there is one, and whether it is withdrawn."""
    product = product_of(gtin, entries)
    shown = product and message_value(product)
    return {"gtin": gtin, "party": party, "product": shown, "show": "product", "withdrawn": is_withdrawn(gtin, entries)}


def pack_line(party, pack, entries):
    """A pack as the party holds it."""
    (gtin, serial), held = pack, pack_of(pack, entries)
    change = held.change and {"at": held.change.at, "by": held.change.by, "user": held.change.user}
    return {
        "batch": held.batch,
        "change": change,
        "expiry": date_text(held.expiry),
        "gtin": gtin,
        "national": held.national,
        "party": party,
        "recalled": is_recalled(gtin, held.batch, entries),
        "serial": serial,
        "show": "pack",
        "standing": held.standing,
        "withdrawn": is_withdrawn(gtin, entries),
    }


def lines_of_party(machine, party):
    """What stands at a party."""
    log = machine.logs[party]
    entries = in_order(log)
    yield party_line(machine, party)
    for gtin in named_of(log, "product"):
        yield product_line(party, gtin, entries)
    for gtin, batch in named_of(log, "recall"):
        yield {"batch": batch, "gtin": gtin, "party": party, "show": "recall"}
    for pack in named_of(log, "pack"):
        yield pack_line(party, pack, entries)


def link_line(machine, sender, receiver):
    """What stands on a link, and under way on it."""
    return {
        "applied": machine.count(sender, receiver),
        "closed": not machine.is_open(sender, receiver),
        "from": sender,
        "put": len(machine.links[sender][receiver]),
        "relayed": machine.relayed[sender][receiver],
        "show": "link",
        "to": receiver,
        "wire": machine.wires[sender][receiver],
    }


def lines_of(machine):
    """What stands: at each party, and then on each link on which something was put, or which is closed."""
    for party in range(len(machine.parties)):
        yield from lines_of_party(machine, party)
    for sender, receiver in pairs_of(machine):
        line = link_line(machine, sender, receiver)
        if line["put"] > 0 or line["closed"]:
            yield line


def shown_by(session):
    """What `mvhub show` writes to the lines that a session took, as objects, and the status."""
    if session.machine is None:
        return [NOT_OPEN], 1
    return list(lines_of(session.machine)), 0


def difference(program, session, given):
    """Where a program does not show what the plain machine shows behind the lines that a session took, in words; none where it does."""
    shown, status = shown_by(session)
    done = subprocess.run([program, "show"], input=given, capture_output=True, check=False)
    if (done.returncode, done.stderr) != (status, b""):
        return f"mvhub show: status {done.returncode} in place of {status}, {done.stderr.decode()}"
    differs = first_difference(map(reply_text, shown), done.stdout)
    return differs and f"mvhub show: line {differs[0] + 1} of {len(shown)} differs\n{differs[1]}"


def main():
    session = Session()
    take(session, sys.stdin.buffer.read())
    shown, status = shown_by(session)
    sys.stdout.buffer.writelines(map(reply_text, shown))
    return status


if __name__ == "__main__":
    sys.exit(main())
