"""The inputs of `bench/run hostile`, which are made to be slow. Each can be made for any size; all are the same each time, and of some
every line is refused."""

import random
from functools import partial
from itertools import chain, count, islice, product, repeat
from string import ascii_letters, digits
from typing import Callable, NamedTuple

from loads import (
    KEEPER,
    MAKER,
    NAMES,
    PACKS,
    PARTIES,
    START,
    WINDOW,
    WIRE,
    compact,
    gtin_of,
    numbered_master,
    numbered_upload,
    one_keeper,
    opening,
    plainly,
    sent,
    serial_of,
    taken,
)
from messages import recall_of, repack_of, status_of, upload_of, withdrawal_of

LINE = 65_536  # bytes of the longest line
LINES = 200  # of a run of long lines
SENDERS = [party for party in range(PARTIES) if party not in (MAKER, KEEPER)]  # of what comes late: their links have nothing else
LATE = 40  # as many come in time for each that comes late
PRODUCT = gtin_of(1)


class Hostile(NamedTuple):
    """A load: its name, what its size counts, the task of the program, the size at which it is made first, and its lines for a size."""

    name: str
    unit: str
    task: str
    size: int
    texts: Callable


# What comes late. One party keeps the packs, one uploads them, and all others may send.


def many_senders():
    """The lines that open a system with one repository and as many senders as there may be, who want no receipts, and the launch of a
    product."""
    yield opening([["FI"] if party == KEEPER else [] for party in range(PARTIES)])
    for party in range(PARTIES):
        yield {"do": "close", "from": party, "to": party}
    yield from carried(numbered_master(1, ["FI"]))


def carried(message):
    """A message of the maker comes to the repository."""
    yield from sent(MAKER, message)
    yield from taken(MAKER, KEEPER)


def turned(messages, between=()):
    """These messages are routed, each by the next sender in turn, then come the lines between, and then the messages come to the
    repository, those of the last sender first."""
    links = dict.fromkeys(SENDERS, 0)
    for number, message in enumerate(messages):
        sender = SENDERS[number % len(SENDERS)]
        yield from sent(sender, message)
        if links[sender] < WIRE:
            yield {"do": "relay", "from": sender, "to": KEEPER}
        links[sender] += 1
    yield from between
    for sender in reversed(SENDERS):
        yield from taken_at_last(sender, links[sender])


def taken_at_last(sender, count):
    """So many frames of a sender come to the repository, of which as many were relayed as its wire takes."""
    for number in range(count):
        if number >= WIRE:
            yield {"do": "relay", "from": sender, "to": KEEPER}
        yield {"do": "apply", "from": sender, "to": KEEPER}


def recall(_number):
    """A recall of the batch, each time the same."""
    return recall_of(PRODUCT, "L1", START)


def withdrawal(_number):
    """A withdrawal of the product, each time the same."""
    return withdrawal_of(PRODUCT, START)


def change(number):
    """A pack, each of some in turn, is supplied or reverted."""
    return change_of(serial_of(number % PACKS), number // PACKS)


def change_of(serial, number):
    """A pack is supplied or reverted, by turns."""
    return status_of(PRODUCT, serial, ("supplied", "active")[number % 2], "pharmacy 7", START + number)


def late(makes, uploads):
    """Uploads of the same packs, each of which is supplied and reverted; for so many of them one message comes late."""
    yield from many_senders()
    yield from carried(numbered_upload(PRODUCT, "L1", 0))
    yield from turned(map(makes, range(uploads // LATE)), uploads_of_the_same(uploads))


def uploads_of_the_same(uploads):
    """Uploads of the same packs, each of which is then supplied and reverted."""
    for _ in range(uploads):
        yield from carried(numbered_upload(PRODUCT, "L1", 0))
    for number in range(2 * PACKS):
        yield from carried(change(number))


def late_for_one(uploads):
    """Uploads of the same packs, and as many statuses of one of them; for so many of them a recall comes late."""
    yield from many_senders()
    between = chain(uploads_of_the_same(uploads), *map(carried, changes(uploads)))
    yield from turned(map(recall, range(uploads // LATE)), between)


def one_pack():
    """The lines up to the upload of one pack."""
    yield from many_senders()
    yield from carried(upload_of(PRODUCT, "L1", "320229", [serial_of(0)]))


def changes(numbers):
    """One pack is supplied and reverted, so many times."""
    return [change_of(serial_of(0), number) for number in range(numbers)]


def in_order(statuses):
    """Statuses of one pack, in the order of their stamps."""
    yield from one_pack()
    for message in changes(statuses):
        yield from carried(message)


def against_order(statuses):
    """Statuses of one pack, those of one sender behind those of the next by their stamps."""
    yield from one_pack()
    yield from turned(changes(statuses))


def late_among_many(statuses):
    """Statuses of one pack, in order; for so many of them one comes late."""
    yield from one_pack()
    yield from turned(changes(statuses // LATE), (line for message in changes(statuses) for line in carried(message)))


def late_for_others(packs):
    """Packs of a product, each supplied; for so many of them comes the late recall of a batch of which there is none."""
    yield from many_senders()
    recalls = (recall_of(PRODUCT, f"X{number}", START) for number in range(packs // LATE))
    yield from turned(recalls, supplied(packs))


def supplied(packs):
    """Packs are uploaded and supplied."""
    for number in range(packs // PACKS):
        yield from carried(numbered_upload(PRODUCT, f"L{number}", number))
    for number in range(packs):
        yield from carried(change_of(serial_of(number), 0))


def recalled_unsold(makes, uploads):
    """Uploads of new packs, all of one batch, and no status; then from each sender comes a late recall of the batch, or what is made in its
    place."""
    yield from many_senders()
    new = (numbered_upload(PRODUCT, "L1", number) for number in range(uploads))
    yield from turned(map(makes, range(len(SENDERS))), (line for message in new for line in carried(message)))


def named_again(makes, statuses):
    """An upload that names one pack as often as it can, and statuses of that pack; then come 20 late recalls, or what is made in their
    place."""
    yield from many_senders()
    yield from carried(upload_of(PRODUCT, "L1", "320229", [serial_of(0)] * PACKS))
    yield from turned(map(makes, range(20)), (line for message in changes(statuses) for line in carried(message)))


def turned_over(senders, messages, statuses):
    """Statuses of one pack, in order; in front of them come late messages, the same of each of some senders: a change and what reverts it,
    by turns. Those of the last sender come first, so that each is in front of all that came before, and turns it over."""
    yield from one_pack()
    for sender in SENDERS[:senders]:
        for number, message in enumerate(messages):
            yield from sent(sender, message)
            if number < WIRE:
                yield {"do": "relay", "from": sender, "to": KEEPER}
    for message in changes(statuses):
        yield from carried(message)
    for sender in reversed(SENDERS[:senders]):
        yield from taken_at_last(sender, len(messages))


def turned_over_by_all(statuses):
    """The same, of all senders; there are ten in order for each that comes late."""
    return turned_over(len(SENDERS), changes(2 * (statuses // (20 * len(SENDERS)))), statuses)


# What is kept in tables.


def alike(uploads):
    """Uploads of packs whose serial and batch numbers begin alike, each batch asked for."""
    yield from one_keeper()
    yield from carried(numbered_master(1, ["FI"]))
    for number in range(uploads):
        serials = [f"AAAAAAAAAAAA{number * PACKS + place:08d}" for place in range(PACKS)]
        yield from carried(upload_of(PRODUCT, f"AAAAAAAAAAAA{number:08d}", "320229", serials))
        yield {"do": "verify", "gtin": PRODUCT, "party": KEEPER, "serial": serials[0]}


def star(repackagings):
    """Packs of one batch become packs of so many others."""
    yield from one_keeper()
    yield from carried(numbered_master(1, ["FI"]))
    for number in range(repackagings):
        yield from carried(repack_of((PRODUCT, "L1", ["S1"]), (PRODUCT, f"R{number}", ["S1"]), START))


def ring(repackagings):
    """Packs of each batch become packs of the next, and those of the last of the first."""
    yield from one_keeper()
    yield from carried(numbered_master(1, ["FI"]))
    for number in range(repackagings):
        after = (number + 1) % repackagings
        yield from carried(repack_of((PRODUCT, f"R{number}", ["S1"]), (PRODUCT, f"R{after}", ["S1"]), START))


def all_markets():
    """The lines that open a system with as many parties as there may be, each with a market; the first party wants no receipts."""
    yield opening([[name] for name in NAMES])
    yield {"do": "close", "from": MAKER, "to": MAKER}


def moves(masters):
    """Masters of one product, by turns in one half of the markets and in the other, so that each is for all parties."""
    return [numbered_master(1, NAMES[number % 2 :: 2]) for number in range(masters)]


def masters_carried(masters):
    """Masters in half of the markets, carried to all parties."""
    yield from all_markets()
    for message in moves(masters):
        yield from sent(MAKER, message)
        for party in range(1, PARTIES):
            yield from taken(MAKER, party)


def masters_on_closed_links(masters):
    """Masters in half of the markets, one by one, over links that are closed."""
    yield from all_markets()
    for party in range(1, PARTIES):
        yield {"do": "close", "from": MAKER, "to": party}
    for message in moves(masters):
        yield from sent(MAKER, message)


def masters_without_room(lines):
    """A master in half of the markets that is to be routed again and again, though no link has room."""
    yield from all_markets()
    yield from (line for message in moves(WINDOW) for line in sent(MAKER, message))
    yield from (line for message in moves(1) for line in sent(MAKER, message))
    yield from islice(repeat({"do": "route", "from": MAKER}), lines)


# Long lines, and many.


def keys():
    """Keys of objects, the shortest first."""
    letters = ascii_letters + digits
    return ("".join(key) for length in count(1) for key in product(letters, repeat=length))


def object_of(members, size):
    """An object of members, at most so many bytes: the line."""
    fitting, length = [], 2
    for member in members:
        length += len(member) + 1
        if length > size:
            break
        fitting.append(member)
    return "{" + ",".join(fitting) + "}"


def many_keys(order, size):
    """An object with as many keys as fit, in an order."""
    members = object_of((f'"{key}":0' for key in keys()), size)[1:-1].split(",")
    return "{" + ",".join(order(members)) + "}"


def shuffled(members):
    """The members in an order that is the same each time, and no other."""
    return random.Random(2016).sample(members, len(members))


def one_key(size):
    """An object that has one key again and again."""
    return object_of(repeat('"a":0'), size)


def nested(size):
    """An object of lists, each as deep as it may be."""
    depth = 100
    return '{"a":[' + ",".join(["[" * depth + "]" * depth] * ((size - 9) // (2 * depth + 1))) + "]}"


def escaped(size):
    """An object with a text of escapes."""
    return '{"a":"' + "\\u00e4" * ((size - 8) // 6) + '"}'


def long_number(size):
    """An object with a number of many digits."""
    return '{"a":0.' + "1" * (size - 11) + "e-9}"


def long_lines(makes):
    """The lines of a run for a size: one long line, so many times."""
    return lambda size: islice(repeat(makes(size)), LINES)


def lines(text):
    """The lines of a run for a size: one line, so many times."""
    return lambda size: islice(repeat(text), size)


def of_steps(makes):
    """The lines of a run for a size, by its steps."""
    return lambda size: plainly(makes(size))


def all_loads():
    """The loads."""
    withdrawn = [*changes(WIRE), withdrawal(0)]
    rows = [
        ("uploads of the same packs, late recalls", "uploads", 8_000, partial(late, recall)),
        ("uploads of the same packs, late withdrawals", "uploads", 8_000, partial(late, withdrawal)),
        ("uploads of the same packs, late statuses", "uploads", 8_000, partial(late, change)),
        ("uploads, as many statuses of one pack, late recalls", "uploads", 4_000, late_for_one),
        ("statuses of one pack, in order", "statuses", 40_000, in_order),
        ("statuses of one pack, against order", "statuses", 5_000, against_order),
        ("statuses of one pack, one in 40 late", "statuses", 10_000, late_among_many),
        ("packs supplied, late recalls of other batches", "packs", 20_000, late_for_others),
        ("new packs of one batch, 62 late recalls", "uploads", 5_000, partial(recalled_unsold, recall)),
        ("new packs of one batch, 62 late withdrawals", "uploads", 5_000, partial(recalled_unsold, withdrawal)),
        ("statuses of a pack named 100 times, 20 late recalls", "statuses", 20_000, partial(named_again, recall)),
        ("statuses of a pack named 100 times, 20 late withdrawals", "statuses", 20_000, partial(named_again, withdrawal)),
        ("statuses of one pack, 64 late of 10 senders", "statuses", 20_000, partial(turned_over, 10, changes(WIRE))),
        ("statuses of one pack, 64 late and a withdrawal of 10 senders", "statuses", 20_000, partial(turned_over, 10, withdrawn)),
        ("statuses of one pack, one in 10 late of 62 senders", "statuses", 10_000, turned_over_by_all),
        ("serials and batches that begin alike", "uploads", 2_000, alike),
        ("repackagings of one batch into others", "repackagings", 60_000, star),
        ("repackagings round a ring", "repackagings", 60_000, ring),
        ("masters in 32 markets, carried to 63 parties", "masters", 2_000, masters_carried),
        ("masters in 32 markets, over closed links", "masters", 60_000, masters_on_closed_links),
        ("a master in 32 markets without room", "lines", 300_000, masters_without_room),
    ]
    long_rows = [
        ("an object of many keys, ascending", partial(many_keys, sorted)),
        ("an object of many keys, descending", partial(many_keys, partial(sorted, reverse=True))),
        ("an object of many keys, in no order", partial(many_keys, shuffled)),
        ("an object of one key again and again", one_key),
        ("an object of nested lists", nested),
        ("an object with a text of escapes", escaped),
        ("an object with a number of many digits", long_number),
    ]
    refused_rows = [
        ("lines refused, no JSON", "steps", "x"),
        ("lines refused, nothing open", "steps", '{"do":"route","from":0}'),
        ("messages refused, the last field wrong", "canon", compact({**numbered_master(1, ["FI"] * 32), "strength": ""})),
    ]
    yield from (Hostile(name, unit, "steps", size, of_steps(makes)) for name, unit, size, makes in rows)
    for task in "steps", "canon":
        yield from (Hostile(f"{name}, {task}", "bytes", task, LINE // 2, long_lines(makes)) for name, makes in long_rows)
    yield from (Hostile(name, "lines", task, 500_000, lines(text)) for name, task, text in refused_rows)
