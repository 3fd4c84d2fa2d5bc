"""The rules of the system over plain lists, slowly: a second program to compare the proved one with.

It is written from the rules as docs/ states them, and shares nothing with the code in crates/. It keeps lists alone: what each party
submitted, what of it was routed, the hub's record, what is on each link, the wires, and the log of each repository. Every question
is answered by walking them: it has no tables, no counters but that of the frames relayed on each link, and no shortcuts.

Messages are dictionaries with the fields of their JSON form, read to values: `expiry` is a number of days, `at` a number of seconds.
"""

from typing import NamedTuple

FOR_EVER = ("destruction", "stolen", "repackaged")
TEN_DAYS = 864_000
DAY = 86_400


class Routed(NamedTuple):
    """An entry of the record: the hub routed the sender's message number k."""

    sender: int
    k: int
    message: dict


class Closed(NamedTuple):
    """An entry of the record: the hub closed a link."""

    sender: int
    receiver: int


class Receipt(NamedTuple):
    """An item of a party's link to itself: its message number k was routed, and reached these parties."""

    k: int
    reach: list
    query: bool


class Carried(NamedTuple):
    """An item of a link: a message, with the place of its routing in the record."""

    k: int
    stamp: int
    message: dict


class Change(NamedTuple):
    """Who took a pack out of the active ones, and when, and the stamp of the status that said so."""

    by: int
    user: str
    at: int
    stamp: int


class Held(NamedTuple):
    """A pack that a repository holds."""

    batch: str
    expiry: int
    national: str | None
    standing: str
    change: Change | None


# What a log means. `entries` are pairs of a sender and a carried item, in the order of stamps.


def in_order(log):
    """The carried items of a log, each with its sender, in the order of their stamps."""
    carried = [(sender, item) for sender, item in log if isinstance(item, Carried)]
    return sorted(carried, key=lambda entry: entry[1].stamp)


def held_before(log, stamp):
    """The carried items of a log that have a smaller stamp, in order."""
    return [(sender, item) for sender, item in in_order(log) if item.stamp < stamp]


def product_of(gtin, entries):
    """The last master of a product among the entries; nothing where there is none."""
    for _, item in reversed(entries):
        if item.message["msg"] == "master" and item.message["gtin"] == gtin:
            return item.message
    return None


def is_recalled(gtin, batch, entries):
    """Whether one of the entries recalls the batch."""
    return any(
        item.message["msg"] == "recall" and item.message["gtin"] == gtin and item.message["batch"] == batch
        for _, item in entries
    )


def is_withdrawn(gtin, entries):
    """Whether one of the entries withdraws the product."""
    return any(item.message["msg"] == "withdraw" and item.message["gtin"] == gtin for _, item in entries)


def names(message, pack):
    """Whether a message is an upload that names the pack."""
    return message["msg"] == "upload" and message["gtin"] == pack[0] and pack[1] in message["serials"]


def is_status(message, pack):
    """Whether a message gives the pack a standing."""
    return message["msg"] == "status" and (message["gtin"], message["serial"]) == pack


def revert_effect(held, sender, message, entries):
    """What a status to active does to a pack, behind these entries: the first reason against it, or E1."""
    change = held.change
    if held.standing == "active":
        return "E4"
    if held.standing in FOR_EVER:
        return "E5"
    if change.by != sender or change.user != message["user"]:
        return "E6"
    if message["at"] < change.at:
        return "E7"
    if message["at"] > change.at + TEN_DAYS:
        return "E8"
    if held.expiry < message["at"] // DAY:
        return "E9"
    if is_recalled(message["gtin"], held.batch, entries):
        return "E10"
    if is_withdrawn(message["gtin"], entries):
        return "E13"
    return "E1"


def status_effect(held, sender, message, entries):
    """What a status does to a pack, behind these entries."""
    if held is None:
        return "E2"
    if message["to"] == "active":
        return revert_effect(held, sender, message, entries)
    return "E1" if held.standing == "active" else "E3"


def pack_of(pack, entries):
    """What the entries make of a pack, one after the other; nothing while no upload names it."""
    held = None
    for place, (sender, item) in enumerate(entries):
        message = item.message
        if message.get("gtin") != pack[0]:
            continue
        if held is None and names(message, pack):
            held = Held(message["batch"], message["expiry"], message.get("national"), "active", None)
        elif is_status(message, pack) and status_effect(held, sender, message, entries[:place]) == "E1":
            change = None if message["to"] == "active" else Change(sender, message["user"], message["at"], item.stamp)
            held = held._replace(standing=message["to"], change=change)
    return held


def upload_effect(message, entries):
    """The effect of an upload behind these entries, with the packs that are new and those that are not."""
    new = []
    for serial in message["serials"]:
        if serial not in new and pack_of((message["gtin"], serial), entries) is None:
            new.append(serial)
    return {"effect": "E12", "new": len(new), "old": len(message["serials"]) - len(new)}


def effect_of(log, sender, item):
    """What applying an item does, at its own place in the order of stamps, by what the log holds before that place."""
    if isinstance(item, Receipt):
        return {"effect": "E11"}
    message, entries = item.message, held_before(log, item.stamp)
    kind = message["msg"]
    if kind == "master":
        return {"effect": "E1"}
    if kind == "upload":
        return upload_effect(message, entries)
    if kind == "status":
        held = pack_of((message["gtin"], message["serial"]), entries)
        return {"effect": status_effect(held, sender, message, entries)}
    if kind == "recall":
        return {"effect": "E11" if is_recalled(message["gtin"], message["batch"], entries) else "E1"}
    if kind == "withdraw":
        return {"effect": "E11" if is_withdrawn(message["gtin"], entries) else "E1"}
    return {"effect": "E11"}


def is_about(message, pack, held):
    """Whether a message bears on a pack that is held so, or not at all: a recall does where it is of the pack's batch."""
    if message["msg"] == "recall":
        return held is not None and (message["gtin"], message["batch"]) == (pack[0], held.batch)
    if message["msg"] == "withdraw":
        return message["gtin"] == pack[0]
    return names(message, pack) or is_status(message, pack)


def about(pack, entries):
    """The carried items among the entries that bear on a pack, each with its sender."""
    held = pack_of(pack, entries)
    return [(sender, item) for sender, item in entries if is_about(item.message, pack, held)]


def counts_of(log):
    """How much a log has, each thing counted once: entries, products with a master, packs, those active, batches recalled."""
    entries = in_order(log)
    products = {item.message["gtin"] for _, item in entries if item.message["msg"] == "master"}
    uploads = [item.message for _, item in entries if item.message["msg"] == "upload"]
    packs = {(message["gtin"], serial) for message in uploads for serial in message["serials"]}
    batches = {(item.message["gtin"], item.message["batch"]) for _, item in entries if item.message["msg"] == "recall"}
    return {
        "entries": len(log),
        "products": len(products),
        "packs": len(packs),
        "active": len([pack for pack in packs if pack_of(pack, entries).standing == "active"]),
        "recalled": len(batches),
    }


def place_of(stamp, log):
    """The place in a log, from 0, of the item with a stamp."""
    return [isinstance(item, Carried) and item.stamp == stamp for _, item in log].index(True)


def found_of(pack, log):
    """What a query finds of a pack by a whole log: nothing, or the pack and whether it is recalled or withdrawn."""
    entries = in_order(log)
    held = pack_of(pack, entries)
    if held is None:
        return None
    return {
        "batch": held.batch,
        "expiry": held.expiry,
        "national": held.national,
        "standing": held.standing,
        "recalled": is_recalled(pack[0], held.batch, entries),
        "withdrawn": is_withdrawn(pack[0], entries),
    }


def verdict_by(found):
    """The verdict by all that was found, by one repository or by several."""
    found = [one for one in found if one is not None]
    if any(one["standing"] == "active" for one in found):
        return {"verdict": "authentic"}
    known = any(one["recalled"] or one["withdrawn"] or one["standing"] == "destruction" for one in found)
    return {"falsification": not known, "verdict": "not authentic"}


def joint_verdict(party, log, q):
    """The verdict on a party's own query number q, by the receipt and the answers in its log."""
    receipts = [item for sender, item in log if sender == party and isinstance(item, Receipt) and item.query and item.k == q]
    if not receipts:
        return {"verdict": "not asked"}
    answers = [
        (sender, item.message)
        for sender, item in log
        if isinstance(item, Carried)
        and item.message["msg"] == "answer"
        and item.message["asker"] == party
        and item.message["q"] == q
    ]
    left = [asked for asked in receipts[0].reach if asked not in [sender for sender, _ in answers]]
    if left:
        return {"left": len(left), "verdict": "pending"}
    return verdict_by([message["found"] for _, message in answers])


# What the record means for the hub.


def routed_messages(record, kind):
    """The routed messages of a kind, the first first."""
    return [entry.message for entry in record if isinstance(entry, Routed) and entry.message["msg"] == kind]


def catalogue_of(gtin, record):
    """The last master of a product, if it has one, and the batches of its uploads with their dates, each once; nothing if neither is."""
    masters = [message for message in routed_messages(record, "master") if message["gtin"] == gtin]
    uploads = [message for message in routed_messages(record, "upload") if message["gtin"] == gtin]
    if not masters and not uploads:
        return None
    batches = []
    for message in uploads:
        if (message["batch"], message["expiry"]) not in batches:
            batches.append((message["batch"], message["expiry"]))
    return masters[-1] if masters else None, batches


def linked_to(batch, record):
    """The batches to which a batch was repackaged, ascending."""
    repacks = routed_messages(record, "repack")
    return sorted({(m["after_gtin"], m["after_batch"]) for m in repacks if (m["before_gtin"], m["before_batch"]) == batch})


def descendants_of(batch, record):
    """The batches to which one or more repackagings lead from a batch, ascending."""
    found, todo = [], linked_to(batch, record)
    while todo:
        other = todo.pop()
        if other not in found:
            found.append(other)
            todo += linked_to(other, record)
    return sorted(found)


class Machine:
    """The whole system as lists. Each step gives its reply as an object; one that is refused changes nothing."""

    def __init__(self, parties, window, wire, uplink, submissions):
        self.parties = parties
        self.window, self.wire_limit, self.uplink, self.submissions = window, wire, uplink, submissions
        self.submitted = [[] for _ in parties]
        self.routed = [[] for _ in parties]
        self.record = []
        self.links = [[[] for _ in parties] for _ in parties]
        self.relayed = [[0 for _ in parties] for _ in parties]
        self.wires = [[[] for _ in parties] for _ in parties]
        self.logs = [[] for _ in parties]

    def has(self, *parties):
        """Whether all these parties exist."""
        return all(party < len(self.parties) for party in parties)

    # The hub.

    def markets_of(self, gtin):
        """The markets of the last master of a product in the record."""
        for entry in reversed(self.record):
            if isinstance(entry, Routed) and entry.message["msg"] == "master" and entry.message["gtin"] == gtin:
                return entry.message["markets"]
        return []

    def serve(self, party, markets):
        """Whether a party serves one of the markets."""
        return any(market in self.parties[party] for market in markets)

    def is_target(self, sender, receiver, message):
        """Whether a message is meant for a party, by the record before it."""
        kind = message["msg"]
        if kind == "answer":
            return receiver == message["asker"]
        if kind == "repack":
            markets = self.markets_of(message["before_gtin"]) + self.markets_of(message["after_gtin"])
            return self.serve(receiver, markets)
        markets = self.markets_of(message["gtin"])
        if kind == "master":
            return self.serve(receiver, markets + message["markets"])
        if kind == "query":
            return receiver != sender and self.serve(receiver, markets)
        return self.serve(receiver, markets)

    def is_open(self, sender, receiver):
        """Whether no entry of the record closes the link."""
        return Closed(sender, receiver) not in self.record

    def reach(self, sender, message):
        """The parties that a message would reach now, ascending."""
        return [r for r in range(len(self.parties)) if self.is_open(sender, r) and self.is_target(sender, r, message)]

    def gained(self, sender, receiver, k, message, reach):
        """What a link would gain by the routing of a message, now."""
        items = []
        if receiver == sender and self.is_open(sender, sender):
            items.append(Receipt(k, reach, message["msg"] == "query"))
        if receiver in reach:
            items.append(Carried(k, len(self.record) + 1, message))
        return items

    # The parties.

    def fullness(self, party):
        """Why a party can submit nothing more now: the number of the refusal, or nothing."""
        if len(self.submitted[party]) - len(self.routed[party]) == self.uplink:
            return "S3"
        if len(self.submitted[party]) == self.submissions:
            return "S4"
        return None

    def count(self, sender, receiver):
        """How many items from the sender the receiver has applied."""
        return len([item for by, item in self.logs[receiver] if by == sender])

    # The steps.

    def submit(self, sender, message):
        """A party submits a message."""
        if not self.has(sender):
            return {"refused": "S1"}
        if message["msg"] in ("query", "answer"):
            return {"refused": "S2"}
        if self.fullness(sender):
            return {"refused": self.fullness(sender)}
        self.submitted[sender].append(message)
        return {"submitted": len(self.submitted[sender])}

    def verify(self, party, pack):
        """A party verifies a pack: at home where it is held, else by asking."""
        if not self.has(party):
            return {"refused": "S1"}
        found = found_of(pack, self.logs[party])
        if found is not None:
            return verdict_by([found])
        if self.fullness(party):
            return {"refused": self.fullness(party)}
        self.submitted[party].append({"msg": "query", "gtin": pack[0], "serial": pack[1]})
        return {"asked": len(self.submitted[party])}

    def route(self, sender):
        """The hub routes the next message of a party."""
        if not self.has(sender):
            return {"refused": "S1"}
        k = len(self.routed[sender]) + 1
        if k > len(self.submitted[sender]):
            return {"refused": "S5"}
        message = self.submitted[sender][k - 1]
        reach = self.reach(sender, message)
        gains = [self.gained(sender, r, k, message, reach) for r in range(len(self.parties))]
        for receiver, items in enumerate(gains):
            waiting = len(self.links[sender][receiver]) - self.relayed[sender][receiver]
            if waiting + len(items) > self.window:
                return {"party": receiver, "refused": "S6"}
        for receiver, items in enumerate(gains):
            self.links[sender][receiver].extend(items)
        self.record.append(Routed(sender, k, message))
        self.routed[sender].append(message)
        return {"reach": reach, "routed": k}

    def relay(self, sender, receiver):
        """The next frame of a link goes on its wire."""
        if not self.has(sender, receiver):
            return {"refused": "S1"}
        if len(self.wires[sender][receiver]) == self.wire_limit:
            return {"refused": "S7"}
        if self.relayed[sender][receiver] == len(self.links[sender][receiver]):
            return {"refused": "S11"}
        self.relayed[sender][receiver] += 1
        self.wires[sender][receiver].append(self.relayed[sender][receiver])
        return {"relayed": self.relayed[sender][receiver]}

    def apply(self, sender, receiver):
        """A repository takes the front frame of a wire."""
        if not self.has(sender, receiver):
            return {"refused": "S1"}
        wire = self.wires[sender][receiver]
        if not wire:
            return {"refused": "S8"}
        number, expected = wire[0], self.count(sender, receiver) + 1
        if number != expected:
            del wire[0]
            return {"old": number} if number < expected else {"expected": expected, "gap": number}
        item = self.links[sender][receiver][number - 1]
        if isinstance(item, Carried) and item.message["msg"] == "query":
            if self.fullness(receiver):
                return {"refused": "S13"}
            return self.answer(sender, receiver, item)
        reply = {"applied": number, **effect_of(self.logs[receiver], sender, item)}
        del wire[0]
        self.logs[receiver].append((sender, item))
        return reply

    def answer(self, asker, party, item):
        """A repository takes a query and submits its answer: by all that it has applied until now."""
        pack = (item.message["gtin"], item.message["serial"])
        found = found_of(pack, self.logs[party])
        number = self.wires[asker][party].pop(0)
        self.logs[party].append((asker, item))
        self.submitted[party].append({"msg": "answer", "asker": asker, "q": item.k, "gtin": pack[0], "serial": pack[1], "found": found})
        return {"answer": len(self.submitted[party]), "applied": number, "effect": "E11"}

    def repeat(self, sender, receiver, number):
        """A frame that was relayed goes on the wire again."""
        if not self.has(sender, receiver):
            return {"refused": "S1"}
        if len(self.wires[sender][receiver]) == self.wire_limit:
            return {"refused": "S7"}
        if number == 0 or number > self.relayed[sender][receiver]:
            return {"refused": "S9"}
        if number <= len(self.links[sender][receiver]) - self.window:
            return {"refused": "S10"}
        self.wires[sender][receiver].append(number)
        return {"repeated": number}

    def close(self, sender, receiver):
        """The hub closes a link."""
        if not self.has(sender, receiver):
            return {"refused": "S1"}
        if not self.is_open(sender, receiver):
            return {"refused": "S12"}
        self.record.append(Closed(sender, receiver))
        return {"closed": True}

    def lose(self, sender, receiver):
        """The front frame of a wire is lost."""
        if not self.has(sender, receiver):
            return {"refused": "S1"}
        if not self.wires[sender][receiver]:
            return {"refused": "S8"}
        return {"lost": self.wires[sender][receiver].pop(0)}

    def verdict(self, party, q):
        """A party takes the verdict on its query number q."""
        if not self.has(party):
            return {"refused": "S1"}
        return joint_verdict(party, self.logs[party], q)
