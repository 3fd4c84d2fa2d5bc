"""The inputs of bench/run: messages, and the loads that are made of them. All are the same each time, and no line is refused."""

import json
import random
import sys
from collections import Counter, defaultdict, deque
from itertools import count, cycle, islice
from pathlib import Path

sys.path.insert(0, str(Path(__file__).resolve().parent.parent / "tests"))

from messages import answer_of, market_of, master_of, query_of, recall_of, repack_of, status_of, upload_of, withdrawal_of

PARTIES = 64  # at most
UPLINK, WINDOW, WIRE = 64, 256, 64  # at most
NAMES = [market_of(party) for party in range(PARTIES)]
MARKETS = ["AT", "BE", "DE", "DK", "ES", "FI", "FR", "SE"]
STANDINGS = ["active", "supplied", "exported", "destruction", "sample", "free_sample", "stolen", "repackaged"]
CODE = "ABCDEFGHJKLMNPQRSTUVWXYZ0123456789"
START = 1_800_000_000
PACKS = 100  # of an upload
TEXTS = {
    "common": "paracetamol",
    "form": "tablet",
    "name": "Examplin",
    "pack_size": "30",
    "pack_type": "blister",
    "scheme": "GTIN",
    "strength": "500 mg",
}


# Messages.


def gtin_of(number):
    """The GTIN of 14 digits with this number and its check digit."""
    body = f"{number:013d}"
    total = sum(int(digit) * (3 if place % 2 == 0 else 1) for place, digit in enumerate(body))
    return body + str(-total % 10)


def serial_of(number):
    """The serial number of 16 characters of the pack with this number; no two are the same."""
    return f"{(number * 6364136223846793005 + 1442695040888963407) % 2**64:016X}"


def compact(value):
    """The canonical text of a value."""
    return json.dumps(value, separators=(",", ":"), sort_keys=True, ensure_ascii=False)


def numbered_master(number, markets):
    """The product master with this number."""
    return master_of(gtin_of(number), markets, TEXTS)


def numbered_upload(gtin, batch, number):
    """The upload with this number: of 100 packs, those with the numbers from 100 times that on."""
    return upload_of(gtin, batch, "320229", [serial_of(number * PACKS + place) for place in range(PACKS)])


def repacked(gtin, batch, serials, at):
    """Packs of a batch become packs of another."""
    return repack_of((gtin, batch, serials), (gtin, "R" + batch, ["R" + serial for serial in serials]), at)


# Lines.


def opening(parties):
    """The line that opens a system of parties that serve these markets, with the widest limits."""
    return {"do": "open", "parties": parties, "submissions": 1_000_000, "uplink": UPLINK, "window": WINDOW, "wire": WIRE}


def submission(sender, message):
    """The line by which a party submits a message."""
    return {"do": "submit", "from": sender, "message": message}


def sent(sender, message):
    """A message is submitted and routed."""
    yield submission(sender, message)
    yield {"do": "route", "from": sender}


def taken(sender, receiver):
    """The next frame of a link is relayed and applied."""
    yield {"do": "relay", "from": sender, "to": receiver}
    yield {"do": "apply", "from": sender, "to": receiver}


class Work:
    """The work of 8 parties, and as much of the system as it takes to write no line that is refused. Some links are left to wait."""

    def __init__(self, waits):
        self.some = random.Random(2016)
        self.waits = waits
        self.products = []  # GTIN, maker, and the parties where it is sold
        self.uploads = []  # product, batch, and the parties that it reached
        self.held = []  # party and upload, once the party has applied it
        self.supplied = deque(maxlen=1000)  # party, product, serial number and user
        self.submitted = Counter()
        self.relayed = Counter()
        self.closed = set()
        self.waiting = defaultdict(deque)  # on each link, what is to be done once it is applied
        self.moment = START

    def rounds(self, events):
        """The lines of rounds without end: in each, each event so many times; one of less than once in some of the rounds."""
        yield opening([[market] for market in MARKETS])
        for _ in range(16):
            yield from self.launch()
            yield from self.upload()
        for number in cycle(range(1000)):
            for event, times in events:
                due = round(times) if times >= 1 else number % round(1 / times) == 0
                for _ in range(due):
                    yield from event()

    def send(self, sender, message, reach):
        """A party submits a message, the hub routes it, and it is carried to the parties that it reaches."""
        yield submission(sender, message)
        self.submitted[sender] += 1
        yield from self.carry(sender, dict.fromkeys(reach))

    def carry(self, sender, tasks):
        """The hub routes a message to some parties, each of which has something to do once it is applied."""
        yield {"do": "route", "from": sender}
        tasks = {to: task for to, task in tasks.items() if (sender, to) not in self.closed}
        links = [*tasks] if (sender, sender) in self.closed else [*{sender: None, **tasks}]
        if (sender, sender) not in self.closed:
            self.waiting[sender, sender].append(None)
        for to, task in tasks.items():
            self.waiting[sender, to].append(task)
        for to in links:
            if self.some.random() >= self.waits:  # the others come late
                yield from self.empty(sender, to)

    def empty(self, sender, to):
        """All that waits on a link is relayed and applied; some frames are lost, and some come twice."""
        waiting = self.waiting[sender, to]
        link = {"from": sender, "to": to}
        while waiting:
            self.relayed[sender, to] += 1
            again = {"do": "repeat", **link, "number": self.relayed[sender, to]}
            yield {"do": "relay", **link}
            luck = self.some.random()
            if luck < 0.02:
                yield {"do": "lose", **link}
                yield again
            elif luck < 0.04:
                yield again
                yield {"do": "apply", **link}
            yield {"do": "apply", **link}
            task = waiting.popleft()
            if task is not None:
                yield from task()

    def close(self):
        """A link is closed, as long as most are open: no two that begin or end at one party."""
        sender = len(self.closed)
        if sender < len(MARKETS) // 2:
            self.closed.add((sender, sender + len(MARKETS) // 2))
            yield {"do": "close", "from": sender, "to": sender + len(MARKETS) // 2}

    def launch(self):
        """A new product."""
        maker, sold = self.some.randrange(8), self.some.sample(range(8), self.some.randint(1, 3))
        self.products.append([gtin_of(len(self.products) + 1), maker, sold])
        yield from self.send(maker, numbered_master(len(self.products), [MARKETS[party] for party in sold]), sold)

    def move(self):
        """A product is sold elsewhere from now on."""
        number = self.some.randrange(len(self.products))
        _, maker, before = self.products[number]
        sold = self.some.sample(range(8), 2)
        self.products[number][2] = sold
        yield from self.send(maker, numbered_master(number + 1, [MARKETS[party] for party in sold]), {*before, *sold})

    def upload(self):
        """A hundred packs of a product, a batch of their own."""
        product = self.some.choice(self.products[-200:])
        gtin, maker, sold = product
        number, batch = len(self.uploads), f"L{len(self.uploads):07d}"
        self.uploads.append((product, batch, sold))
        yield submission(maker, numbered_upload(gtin, batch, number))
        self.submitted[maker] += 1
        yield from self.carry(maker, {party: lambda party=party: self.hold(party, number) for party in sold})

    def hold(self, party, upload):
        """A party has applied an upload; that is no line."""
        self.held.append((party, upload))
        return ()

    def pack(self, upload):
        """A pack of an upload: the product and the serial number."""
        return self.uploads[upload][0], serial_of(upload * PACKS + self.some.randrange(PACKS))

    def held_pack(self):
        """A party, and a pack that it holds."""
        party, upload = self.some.choice(self.held[-2000:] if self.some.random() < 0.5 else self.held)
        return party, *self.pack(upload)

    def verify_at_home(self):
        """A pack is verified where it is held."""
        party, (gtin, _, _), serial = self.held_pack()
        yield {"do": "verify", "gtin": gtin, "party": party, "serial": serial}

    def set_standing(self, to):
        """A pack takes a standing where it is held."""
        party, product, serial = self.held_pack()
        user = f"pharmacy {self.some.randrange(5000)}"
        if to == "supplied":
            self.supplied.append((party, product, serial, user))
        return self.status(party, product, serial, to, user)

    def status(self, party, product, serial, to, user):
        """A status is sent to all who sell the product."""
        gtin, _, sold = product
        self.moment += 1
        return self.send(party, status_of(gtin, serial, to, user, self.moment), sold)

    def supply(self):
        """A pack is supplied."""
        return self.set_standing("supplied")

    def change(self):
        """A pack takes another standing."""
        return self.set_standing(self.some.choice(STANDINGS[2:]))

    def revert(self):
        """A pack that was supplied is active again."""
        if self.supplied:
            party, product, serial, user = self.some.choice(self.supplied)
            yield from self.status(party, product, serial, "active", user)

    def verify_abroad(self):
        """A pack is verified where it was never sold: those who sell it are asked, and answer; then comes the verdict."""
        upload = self.some.randrange(len(self.uploads))
        (gtin, _, sold), serial = self.pack(upload)
        asker = self.some.choice([party for party in range(8) if party not in self.uploads[upload][2]])
        yield {"do": "verify", "gtin": gtin, "party": asker, "serial": serial}
        self.submitted[asker] += 1
        verdict = {"do": "verdict", "party": asker, "q": self.submitted[asker]}
        yield from self.carry(asker, {party: lambda party=party: self.answer(party, asker) for party in sold if party != asker})
        yield verdict

    def answer(self, party, asker):
        """A party has applied a query, and with that it has submitted its answer."""
        self.submitted[party] += 1
        yield from self.carry(party, {asker: None})

    def repackage(self):
        """Ten packs of a batch become packs of another."""
        upload = self.some.randrange(len(self.uploads))
        (gtin, maker, sold), batch, _ = self.uploads[upload]
        serials = [serial_of(upload * PACKS + place) for place in range(10)]
        yield from self.send(maker, repacked(gtin, batch, serials, self.moment), sold)

    def recall(self):
        """A batch is recalled."""
        (gtin, maker, sold), batch, _ = self.some.choice(self.uploads)
        yield from self.send(maker, recall_of(gtin, batch, START), sold)

    def withdraw(self):
        """A product is withdrawn."""
        gtin, maker, sold = self.some.choice(self.products)
        yield from self.send(maker, withdrawal_of(gtin, START), sold)


# Loads.


def uploads(lines):
    """Uploads of 100 packs, statuses and queries of 8 parties: a few packs held for each line."""
    work = Work(waits=0)
    events = [(work.upload, 1), (work.supply, 3), (work.verify_abroad, 1), (work.launch, 0.01)]
    return islice(work.rounds(events), lines)


def until_submitted(lines, messages):
    """The lines until so many messages were submitted, and all that was submitted before the last of them is carried."""
    submitted = 0
    for line in lines:
        submitted += line["do"] in ("submit", "verify")
        if submitted > messages:
            return
        yield line


def planned(lines):
    """What a plan has of the lines of a run: the opening, and what each party submits, in order."""
    return (line for line in lines if line["do"] in ("open", "submit", "verify"))


def rounds(lines, waits):
    """Rounds of all kinds of lines and messages; a share of the links is left to wait."""
    work = Work(waits)
    events = [
        (work.launch, 0.5),
        (work.upload, 2),
        (work.verify_at_home, 20),
        (work.supply, 12),
        (work.verify_abroad, 3),
        (work.change, 2),
        (work.revert, 3),
        (work.repackage, 1),
        (work.move, 0.1),
        (work.recall, 0.5),
        (work.withdraw, 0.1),
        (work.close, 0.02),
    ]
    return islice(work.rounds(events), lines)


def markets(uploads):
    """One product in 32 of 64 markets, and uploads of 100 packs that are carried to each of these."""
    sold = range(0, PARTIES, 2)
    yield opening([[name] for name in NAMES])
    yield {"do": "close", "from": 1, "to": 1}  # the maker wants no receipts
    messages = [numbered_master(1, [NAMES[party] for party in sold])]
    messages += [numbered_upload(gtin_of(1), f"L{number:07d}", number) for number in range(uploads)]
    for message in messages:
        yield from sent(1, message)
        for party in sold:
            yield from taken(1, party)


# The parties of the runs with one repository: who makes the packs, the repository, and two whose messages come late.
MAKER, KEEPER, RECALLER, SHOP = range(4)


def one_keeper():
    """The lines that open a system with one repository; the other parties want no receipts."""
    yield opening([[], ["FI"], [], []])
    for party in (MAKER, RECALLER, SHOP):
        yield {"do": "close", "from": party, "to": party}


def launched(number):
    """The product master with this number comes to the one repository."""
    yield from sent(MAKER, numbered_master(number, ["FI"]))
    yield from taken(MAKER, KEEPER)


def recalls(uploads, recalls):
    """Uploads of the same 100 packs, each of which is then supplied and reverted; last come the recalls of their batch, which were routed
    before."""
    yield from one_keeper()
    yield from launched(1)
    for _ in range(recalls):
        yield from sent(RECALLER, recall_of(gtin_of(1), "L1", START))
    for _ in range(uploads):
        yield from sent(MAKER, numbered_upload(gtin_of(1), "L1", 0))
        yield from taken(MAKER, KEEPER)
    for place in range(PACKS):
        for to in ("supplied", "active"):
            yield from sent(SHOP, status_of(gtin_of(1), serial_of(place), to, "pharmacy 7", START + place))
            yield from taken(SHOP, KEEPER)
    for _ in range(recalls):
        yield from taken(RECALLER, KEEPER)


def packs(uploads):
    """Uploads of 100 packs to one repository: a product with one batch of 100,000, the others of products with 100 batches each. Every
    fourth upload two packs are supplied, and one such status in ten comes late. Four messages are routed early on and never relayed:
    recalls of a batch of 100 and of one of 100,000, withdrawals of products of 10,000 and of 100,000 packs."""
    yield from one_keeper()
    for product in range(1 + (uploads - 1000) // 100):
        yield from launched(product + 1)
    for message in (recall_of(gtin_of(2), "L0001000", START), recall_of(gtin_of(1), "L0000000", START)):
        yield from sent(RECALLER, message)
    for message in (withdrawal_of(gtin_of(2), START), withdrawal_of(gtin_of(1), START)):
        yield from sent(RECALLER, message)
    statuses, late = 0, 0
    for number in range(uploads):
        product, batch = (1, 0) if number < 1000 else (2 + (number - 1000) // 100, number)
        yield from sent(MAKER, numbered_upload(gtin_of(product), f"L{batch:07d}", number))
        yield from taken(MAKER, KEEPER)
        for place in (17, 71) if number % 4 == 0 else ():
            statuses += 1
            sender = SHOP if statuses % 10 == 0 else MAKER
            serial = serial_of(number * PACKS + place)
            yield from sent(sender, status_of(gtin_of(product), serial, "supplied", "pharmacy 7", START + statuses))
            if sender == MAKER:
                yield from taken(MAKER, KEEPER)
            else:
                late += 1
        if late == 32:
            for _ in range(late):
                yield from taken(SHOP, KEEPER)
            late = 0


def single_packs(uploads):
    """Uploads of one pack each to one repository, 100 to a batch."""
    yield from one_keeper()
    yield from launched(1)
    for number in range(uploads):
        upload = numbered_upload(gtin_of(1), f"L{number // PACKS:07d}", 0)
        yield from sent(MAKER, {**upload, "serials": [serial_of(number)]})
        yield from taken(MAKER, KEEPER)


def steps(masters, loses):
    """The opening, and six lines for each master, which goes to the market that it names and to its sender; eight or ten where frames are
    lost."""
    yield opening([[market] for market in MARKETS])
    relayed = Counter()
    for number in range(masters):
        sender = number % len(MARKETS)
        receiver = (number * 5 + 3) % len(MARKETS)
        yield from sent(sender, numbered_master(number + 1, [MARKETS[receiver]]))
        for to in [sender, receiver]:
            link = {"from": sender, "to": to}
            relayed[sender, to] += 1
            yield {"do": "relay", **link}
            if loses and relayed.total() % 3 == 0:
                yield {"do": "lose", **link}
                yield {"do": "repeat", **link, "number": relayed[sender, to]}
            yield {"do": "apply", **link}


def longest_master(number):
    """A master with this number among those of one product: the longest there is. It names one half of the markets, and the next one the
    other, so that each is for all parties."""
    return master_of(gtin_of(1), NAMES[number % 2 :: 2], {name: f"{number:0200d}" for name in TEXTS})


def largest():
    """The largest system, which is then filled: each uplink, each wire and each window but those of parties to themselves, with messages
    none of which is another's."""
    yield opening([[name] for name in NAMES])
    for party in range(PARTIES):
        yield {"do": "close", "from": party, "to": party}
    yield from sent(0, longest_master(0))
    for party in range(2, PARTIES, 2):
        yield from taken(0, party)
    numbers = count(1)
    for party in range(PARTIES):
        for number in range(WIRE + WINDOW):
            yield from sent(party, longest_master(next(numbers)))
            if number < WIRE:
                yield from ({"do": "relay", "from": party, "to": to} for to in range(PARTIES) if to != party)
        for _ in range(UPLINK):
            yield submission(party, longest_master(next(numbers)))


# Messages for canon.


def code_of(some, length):
    """A serial or batch number."""
    return "".join(some.choices(CODE, k=length))


class Messages:
    """Messages in their canonical form, in one of two mixtures."""

    def __init__(self):
        self.some = random.Random(2016)

    def all_kinds(self, count):
        """Messages of all kinds in turn; uploads and repackagings have 1 to 100 serials."""
        makers = [self.master, self.upload, self.status, self.recall, self.repack, self.query, self.answer, self.withdrawal]
        return (makers[number % 8](number) for number in range(count))

    def most_uploads(self, count):
        """Three uploads of 1 to 100 serials, and then one status."""
        makers = [self.upload, self.upload, self.upload, self.status]
        return (makers[number % 4](number) for number in range(count))

    def batch(self):
        return code_of(self.some, 8)

    def serial(self):
        return code_of(self.some, 14)

    def serials(self):
        return [self.serial() for _ in range(self.some.randint(1, PACKS))]

    def master(self, number):
        return numbered_master(number + 1, self.some.sample(MARKETS, 3))

    def upload(self, number):
        serials = self.serials()
        return upload_of(gtin_of(number + 1), self.batch(), "280229", serials)

    def status(self, number):
        return status_of(gtin_of(number + 1), self.serial(), self.some.choice(STANDINGS), "pharmacy 7", START + number)

    def recall(self, number):
        return recall_of(gtin_of(number + 1), self.batch(), START)

    def repack(self, number):
        return repacked(gtin_of(number + 1), self.batch(), self.serials(), START + number)

    def query(self, number):
        return query_of(gtin_of(number + 1), self.serial())

    def answer(self, number):
        found = {"batch": self.batch(), "expiry": "280229", "recalled": False, "standing": self.some.choice(STANDINGS)}
        return answer_of(number % 8, number + 1, gtin_of(number + 1), self.serial(), found)

    def withdrawal(self, number):
        return withdrawal_of(gtin_of(number + 1), START)


# Spellings: the texts of lines and messages, one each. What is said is the same in all.


def plainly(values):
    """Without blanks, the keys in byte order."""
    return map(compact, values)


def by_hand(values):
    """Without blanks, and as a person writes: first what a line does and a message is, then of what."""
    return (json.dumps(value, separators=(",", ":"), ensure_ascii=False) for value in values)


def in_any_order(values):
    """With a blank behind each `,` and `:`, the keys in an order that is drawn, and a GTIN without a zero before it."""
    some = random.Random(2016)
    return (json.dumps(drawn(some, value), ensure_ascii=False) for value in values)


def drawn(some, value):
    """A value with the keys of each object in an order that is drawn."""
    if not isinstance(value, dict):
        return value
    keys = some.sample([*value], len(value))
    return {key: value[key].removeprefix("0") if key == "gtin" else drawn(some, value[key]) for key in keys}
