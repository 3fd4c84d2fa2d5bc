"""The lines of `mvhub steps`, read and answered by the plain machine, as docs/FORMATS.md says.

As a program it answers its standard input, line by line, as `mvhub steps` would: `python3 tests/plain_lines.py < examples/recall.jsonl`.
"""

import calendar
import datetime
import json
import math
import sys

from plain_machine import Machine

CODE = "ABCDEFGHIJKLMNOPQRSTUVWXYZabcdefghijklmnopqrstuvwxyz0123456789!\"%&'()*+,-./:;<=>?_"
STANDINGS = ("active", "supplied", "exported", "destruction", "sample", "free_sample", "stolen", "repackaged")
U32, U64 = 2**32 - 1, 2**64 - 1
END_OF_TIME = 4_102_444_800
DEEPEST = 127


class Refused(Exception):
    """A line is refused with this reply."""

    def __init__(self, number, **more):
        super().__init__(number)
        self.reply = {"refused": number, **more}


def wrong(field, fault, **more):
    """The refusal of a value that its reader does not take."""
    return Refused("M6", field=field, fault=fault, **more)


# JSON.


def number_of(text):
    """A number: a whole one where it has neither sign, fraction nor exponent and 64 bits; one without a reading is none."""
    if text.isdigit() and int(text[:25]) <= U64:
        return int(text)
    value = float(text)
    if math.isinf(value):
        raise ValueError(text)
    return value


def no_constant(text):
    """Not a number, and the infinities, are no JSON."""
    raise ValueError(text)


class Members(dict):
    """The members of an object. Of a key that stands twice the last value counts, but the others have to be JSON too."""

    def __init__(self, pairs):
        super().__init__(pairs)
        self.all = pairs


def depth(value):
    """How deep lists and objects nest. A text with half of a pair of surrogates is none."""
    if isinstance(value, Members):
        return 1 + max((max(depth(name), depth(member)) for name, member in value.all), default=0)
    if isinstance(value, list):
        return 1 + max(map(depth, value), default=0)
    if isinstance(value, str):
        value.encode()
    return 0


def json_of(line):
    """The value of a line."""
    readers = {"parse_int": number_of, "parse_float": number_of, "parse_constant": no_constant}
    try:
        value = json.loads(line.decode(), object_pairs_hook=Members, **readers)
        if depth(value) > DEEPEST:
            raise Refused("M1")
    except (ValueError, RecursionError):
        raise Refused("M1") from None
    return value


# Fields: each reader takes the name of its field and the value, and gives what it means.


def text(field, value):
    """Any text."""
    if not isinstance(value, str):
        raise Refused("M5", field=field)
    return value


def gtin(field, value):
    """A product code, with 14 digits."""
    digits = text(field, value)
    if len(digits.encode()) not in (8, 12, 13, 14):
        raise wrong(field, "P1")
    if any(digit not in "0123456789" for digit in digits):
        raise wrong(field, "P2")
    digits = digits.rjust(14, "0")
    if sum(int(digit) * (1 if place % 2 else 3) for place, digit in enumerate(digits)) % 10:
        raise wrong(field, "P3")
    return digits


def code(field, value):
    """A serial, batch or national number."""
    read = text(field, value).encode()
    if not read:
        raise wrong(field, "P4")
    if len(read) > 20:
        raise wrong(field, "P5")
    for place, byte in enumerate(read, start=1):
        if chr(byte) not in CODE:
            raise wrong(field, "P6", place=place)
    return value


def national(field, value):
    """A national number, or none."""
    return None if value is None else code(field, value)


def expiry(field, value):
    """The days from 1970-01-01 to a date."""
    digits = text(field, value)
    if len(digits) != 6 or any(digit not in "0123456789" for digit in digits):
        raise wrong(field, "P7")
    year, month, day = 2000 + int(digits[:2]), int(digits[2:4]), int(digits[4:])
    if not 1 <= month <= 12 or day > calendar.monthrange(year, month)[1]:
        raise wrong(field, "P7")
    date = datetime.date(year, month, day or calendar.monthrange(year, month)[1])
    return (date - datetime.date(1970, 1, 1)).days


def market(field, value):
    """Two capital letters."""
    if len(value) != 2 or not all("A" <= letter <= "Z" for letter in value):
        raise wrong(field, "P8")
    return value


def texts(field, value, most, reader):
    """A list of one to so many texts, each taken by the reader."""
    if not isinstance(value, list) or not all(isinstance(member, str) for member in value):
        raise Refused("M5", field=field)
    if not 1 <= len(value) <= most:
        raise Refused("M7", field=field)
    return [reader(field, member) for member in value]


def serials(field, value):
    """A list of serial numbers."""
    return texts(field, value, 100, code)


def markets(field, value):
    """The markets of a product."""
    return texts(field, value, 32, market)


def free(field, value):
    """A text of 1 to 200 bytes."""
    if not 1 <= len(text(field, value).encode()) <= 200:
        raise Refused("M8", field=field)
    return value


def whole(field, value, least=0, most=U32):
    """A whole number."""
    if type(value) is not int or not least <= value <= most:
        raise Refused("M5", field=field)
    return value


def moment(field, value):
    """Seconds since 1970, before the year 2100."""
    if whole(field, value, most=U64) >= END_OF_TIME:
        raise wrong(field, "P9")
    return value


def standing(field, value):
    """One of the eight standings."""
    if value not in STANDINGS:
        raise Refused("M5", field=field)
    return value


def flag(field, value):
    """True or false."""
    if not isinstance(value, bool):
        raise Refused("M5", field=field)
    return value


def from_one(field, value):
    """The number of a message."""
    return whole(field, value, least=1)


MESSAGES = {
    "master": dict.fromkeys(("common", "form", "name", "pack_size", "pack_type", "scheme", "strength"), free)
    | {"gtin": gtin, "markets": markets},
    "upload": {"batch": code, "expiry": expiry, "gtin": gtin, "serials": serials},
    "status": {"at": moment, "gtin": gtin, "serial": code, "to": standing, "user": free},
    "recall": {"at": moment, "batch": code, "gtin": gtin},
    "repack": {
        "after_batch": code,
        "after_gtin": gtin,
        "after_serials": serials,
        "at": moment,
        "before_batch": code,
        "before_gtin": gtin,
        "before_serials": serials,
    },
    "query": {"gtin": gtin, "serial": code},
    "answer": {"asker": whole, "found": None, "gtin": gtin, "q": from_one, "serial": code},
    "withdraw": {"at": moment, "gtin": gtin},
}
FOUND = {"batch": code, "expiry": expiry, "recalled": flag, "standing": standing}


def found_reader(version):
    """The reader of what was found of a pack: whatever is wrong in it is a fault of the whole."""
    fields = FOUND | ({"national": national, "withdrawn": flag} if version == 2 else {})

    def found(field, value):
        if value is None:
            return None
        if not isinstance(value, dict) or sorted(value) != sorted(fields):
            raise Refused("M5", field=field)
        try:
            return {name: reader(name, value[name]) for name, reader in fields.items()}
        except Refused:
            raise Refused("M5", field=field) from None

    return found


def fields_of(value, readers):
    """The fields of an object: none may be there that has no reader, and none may be missing."""
    for name in sorted(value):
        if name not in readers:
            raise Refused("M4", field=name)
    read = {}
    for name in sorted(readers):
        if name not in value:
            raise Refused("M3", field=name)
        read[name] = readers[name](name, value[name])
    return read


def kind_of(value, field, kinds):
    """What an object says that it is."""
    if field not in value:
        raise Refused("M3", field=field)
    kind = value[field]
    if not isinstance(kind, str) or kind not in kinds:
        raise Refused("M5", field=field)
    return kind


def message(_, value):
    """A message of version 1, or of version 2 where it has a `v`."""
    if not isinstance(value, dict):
        raise Refused("M2")
    version = 1
    if "v" in value:
        version = whole("v", value["v"], least=2, most=2)
    kind = kind_of(value, "msg", [kind for kind in MESSAGES if version == 2 or kind != "withdraw"])
    readers = MESSAGES[kind] | {"msg": text}
    if kind == "answer":
        readers["found"] = found_reader(version)
    if version == 2:
        readers["v"] = whole
        if kind == "upload":
            readers["national"] = national
    return fields_of(value, readers)


def parties(field, value):
    """A list of lists of markets."""
    if not isinstance(value, list) or not all(isinstance(served, list) for served in value):
        raise Refused("M5", field=field)
    if not all(isinstance(name, str) for served in value for name in served):
        raise Refused("M5", field=field)
    return [[market(field, name) for name in served] for served in value]


LINES = {
    "open": {"parties": parties, "submissions": whole, "uplink": whole, "window": whole, "wire": whole},
    "submit": {"from": whole, "message": message},
    "verify": {"gtin": gtin, "party": whole, "serial": code},
    "verdict": {"party": whole, "q": whole},
    "route": {"from": whole},
    "repeat": {"from": whole, "number": whole, "to": whole},
} | dict.fromkeys(("relay", "apply", "close", "lose"), {"from": whole, "to": whole})


def opened(asked):
    """The system that a line opens."""
    served = [name for names in asked["parties"] for name in names]
    if not asked["parties"]:
        raise Refused("H1")
    if len(asked["parties"]) > 64:
        raise Refused("H2")
    if any(served.count(name) > 1 for name in served):
        raise Refused("H3")
    for number, name, least, most in (("O1", "window", 2, 256), ("O2", "wire", 1, 64), ("O3", "uplink", 1, 64)):
        if not least <= asked[name] <= most:
            raise Refused(number)
    if not 1 <= asked["submissions"] <= 1_000_000:
        raise Refused("O4")
    return Machine(asked["parties"], asked["window"], asked["wire"], asked["uplink"], asked["submissions"])


class Session:
    """Answers lines; `machine` is the system once one is open, and `steps` are those that it took, each with its fields and its reply."""

    def __init__(self):
        self.machine = None
        self.steps = []

    def reply(self, line):
        """The object that answers a line."""
        try:
            value = json_of(line)
            if not isinstance(value, dict):
                raise Refused("M2")
            task = kind_of(value, "do", LINES)
            asked = fields_of(value, LINES[task] | {"do": text})
            if (task == "open") == (self.machine is not None):
                raise Refused("C2" if task == "open" else "C1")
            if task == "open":
                self.machine = opened(asked)
                return {"opened": len(asked["parties"])}
            reply = self.step(task, asked)
            self.steps.append((task, asked, reply))
            return reply
        except Refused as refused:
            return refused.reply

    def step(self, task, asked):
        """The reply of the machine to a step."""
        machine = self.machine
        if task == "submit":
            return machine.submit(asked["from"], asked["message"])
        if task == "route":
            return machine.route(asked["from"])
        if task == "verify":
            return machine.verify(asked["party"], (asked["gtin"], asked["serial"]))
        if task == "verdict":
            return machine.verdict(asked["party"], asked["q"])
        if task == "repeat":
            return machine.repeat(asked["from"], asked["to"], asked["number"])
        steps = {"relay": machine.relay, "apply": machine.apply, "close": machine.close, "lose": machine.lose}
        return steps[task](asked["from"], asked["to"])


def reply_text(reply):
    """A reply as it is written."""
    return json.dumps(reply, sort_keys=True, separators=(",", ":"), ensure_ascii=False).encode() + b"\n"


def take(session, given):
    """The replies of a session to an input, each with its line feed."""
    lines = [line.removesuffix(b"\r") for line in given.split(b"\n")]
    return [reply_text(session.reply(line)) for line in lines if line]


def answer(given):
    """The replies to an input."""
    return take(Session(), given)


if __name__ == "__main__":
    sys.stdout.buffer.writelines(answer(sys.stdin.buffer.read()))
