"""What the plain machine shows, written as `whole_runs state` writes it.

As a program it takes an input of `mvhub steps`: `python3 tests/plain_state.py < examples/recall.jsonl`. It writes the replies to the steps,
and then, party by party, what the repository has: five counts, the log, and each product, batch and pack that the steps name. Then it
writes what each party submitted, the record, the frames of each link, what the hub knows of these products and batches, and the wires.
"""

import datetime
import sys

from plain_lines import Session, reply_text, take
from plain_machine import (
    Carried,
    Routed,
    catalogue_of,
    counts_of,
    descendants_of,
    in_order,
    is_recalled,
    is_withdrawn,
    linked_to,
    pack_of,
    place_of,
    product_of,
)

FOUND_IN_VERSION_ONE = ("batch", "expiry", "recalled", "standing")


class Named:
    """The products, batches and packs that steps name, each once, in the order in which they are first named."""

    def __init__(self):
        self.products, self.batches, self.packs = [], [], []

    def note_step(self, task, asked):
        """Notes what a step names."""
        if task == "submit":
            self.note_message(asked["message"])
        elif task == "verify":
            self.note(asked, "")

    def note_message(self, message):
        """Notes what a message names: a repack names two products, with a batch and packs of each."""
        for side in ("before_", "after_") if message["msg"] == "repack" else ("",):
            self.note(message, side)

    def note(self, fields, side):
        """Notes the product, the batch and the packs of some fields."""
        gtin = fields[side + "gtin"]
        note_once(self.products, gtin)
        if side + "batch" in fields:
            note_once(self.batches, (gtin, fields[side + "batch"]))
        for serial in fields.get(side + "serials", []):
            note_once(self.packs, (gtin, serial))
        if "serial" in fields:
            note_once(self.packs, (gtin, fields["serial"]))


def note_once(names, name):
    """Notes a name that has not been noted."""
    if name not in names:
        names.append(name)


def date_text(day):
    """A day since 1970-01-01, as its date."""
    return (datetime.date(1970, 1, 1) + datetime.timedelta(days=day)).strftime("%y%m%d")


def found_value(found):
    """What was found of a pack: with all its fields where it has a national number or its product is withdrawn."""
    if found is None:
        return None
    value = {**found, "expiry": date_text(found["expiry"])}
    return value if needs_two(found) else {name: value[name] for name in FOUND_IN_VERSION_ONE}


def needs_two(fields):
    """Whether version 1 could not say all: a national number, or that a product is withdrawn."""
    return fields.get("national") is not None or fields.get("withdrawn", False)


def message_value(message):
    """A message as its canonical text has it."""
    value = {name: value for name, value in message.items() if name not in ("v", "national")}
    if message["msg"] == "upload":
        value["expiry"] = date_text(message["expiry"])
        if needs_two(message):
            value |= {"national": message["national"], "v": 2}
    elif message["msg"] == "withdraw":
        value["v"] = 2
    elif message["msg"] == "answer":
        value["found"] = found_value(message["found"])
        if message["found"] and needs_two(message["found"]):
            value["v"] = 2
    return value


def item_value(item):
    """A receipt, or a message with its number and its stamp."""
    if isinstance(item, Carried):
        return {"k": item.k, "message": message_value(item.message), "stamp": item.stamp}
    return {"k": item.k, "query": item.query, "reach": item.reach}


def held_value(held, log):
    """A pack that a repository holds, or nothing."""
    if held is None:
        return None
    change = held.change and {"at": held.change.at, "by": held.change.by, "entry": place_of(held.change.stamp, log)}
    return {**held._asdict(), "expiry": date_text(held.expiry), "change": change}


def copy_of(log, named):
    """What a repository shows of its log."""
    entries = in_order(log)
    yield counts_of(log)
    for place, (sender, item) in enumerate(log):
        yield {"entry": place, "from": sender, "item": item_value(item)}
    for gtin in named.products:
        product = product_of(gtin, entries)
        yield {"gtin": gtin, "product": product and message_value(product), "withdrawn": is_withdrawn(gtin, entries)}
    for gtin, batch in named.batches:
        yield {"gtin": gtin, "batch": batch, "recalled": is_recalled(gtin, batch, entries)}
    for gtin, serial in named.packs:
        yield {"gtin": gtin, "serial": serial, "pack": held_value(pack_of((gtin, serial), entries), log)}


def copies_of(machine, named):
    """What each repository shows, party by party."""
    for party, log in enumerate(machine.logs):
        for shown in copy_of(log, named):
            yield {**shown, "party": party}


def submissions_of(machine):
    """What each party submitted."""
    for party, messages in enumerate(machine.submitted):
        for number, message in enumerate(messages, 1):
            yield {"message": message_value(message), "party": party, "submitted": number}


def record_of(machine):
    """The record; its places count from 1, as stamps do."""
    for place, entry in enumerate(machine.record, 1):
        if isinstance(entry, Routed):
            yield {"from": entry.sender, "k": entry.k, "message": message_value(entry.message), "record": place}
        else:
            yield {"from": entry.sender, "record": place, "to": entry.receiver}


def pairs_of(machine):
    """Each sender with each receiver."""
    everyone = range(len(machine.parties))
    return [(sender, receiver) for sender in everyone for receiver in everyone]


def frames_of(machine):
    """The frames of each link: what each carries, or why it is not repeated."""
    for sender, receiver in pairs_of(machine):
        items, relayed = machine.links[sender][receiver], machine.relayed[sender][receiver]
        for number, item in enumerate(items, 1):
            is_gone = number <= len(items) - machine.window
            shown = "H9" if number > relayed else "H10" if is_gone else item_value(item)
            yield {"frame": number, "from": sender, "item": shown, "to": receiver}


def batch_values(batches):
    """Batches of products."""
    return [{"batch": batch, "gtin": gtin} for gtin, batch in batches]


def catalogues_of(record, named):
    """What the hub knows of products, and how batches are linked by repackagings."""
    for gtin in named.products:
        catalogue = catalogue_of(gtin, record)
        if catalogue is not None:
            product, batches = catalogue
            dated = [{"batch": batch, "expiry": date_text(expiry)} for batch, expiry in batches]
            catalogue = {"batches": dated, "product": product and message_value(product)}
        yield {"catalogue": catalogue, "gtin": gtin}
    for gtin, batch in named.batches:
        linked, descendants = (batch_values(listed((gtin, batch), record)) for listed in (linked_to, descendants_of))
        yield {"batch": batch, "descendants": descendants, "gtin": gtin, "linked": linked}


def wires_of(machine):
    """What lies on each wire, the front frame first."""
    for sender, receiver in pairs_of(machine):
        for number in machine.wires[sender][receiver]:
            yield {"from": sender, "to": receiver, "wire": number}


def lists_of(machine, named):
    """The lists of the system, what the hub knows of what was named, and the wires."""
    yield from submissions_of(machine)
    yield from record_of(machine)
    yield from frames_of(machine)
    yield from catalogues_of(machine.record, named)
    yield from wires_of(machine)


def run_of(session):
    """What `whole_runs state` writes to the lines that a session took, as objects."""
    named = Named()
    for task, asked, _ in session.steps:
        named.note_step(task, asked)
    replies = [reply for _, _, reply in session.steps]
    machine = session.machine
    return replies + ([*copies_of(machine, named), *lists_of(machine, named)] if machine else [])


def main():
    session = Session()
    take(session, sys.stdin.buffer.read())
    sys.stdout.buffer.writelines(map(reply_text, run_of(session)))


if __name__ == "__main__":
    main()
