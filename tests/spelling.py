"""Ways to spell a value in JSON, for the random runs and the odd lines: which of them is drawn."""

import json
from collections import Counter

from damage import damaged

BLANKS = ("", "", " ", "  ", "\t", "\r", " \t")
MARKS = ((", ", ": "), (",", ":"), (" ,", " : "))
SHORT = dict(zip('"\\/\b\f\n\r\t', (f"\\{letter}" for letter in '"\\/bfnrt')))
NUMBERS = ("-{}", "0{}", "+{}", " {} ", "{}0", "{}e0", "{}E+0", "{}e-1", "1e{}", "{}e999", "0e{}")
NUMBERS += ("{}e", "0x{}", "{}_")
# Not for a whole number of more than 64 bits: there the serde_json that the plain programs of
# bench/plain may have, an old one, misreads a point.
POINTED = ("{}.0", "{}.5", "{}.", "{}.0e0", "{}.e0")
DECOYS = (None, True, False, 0, 1, 2, -1, 1.5, 2**32, 2**64, 10**400, 1_800_000_000)
DECOYS += ("", "S1", "\u00e4", "09506000134352", "280229", "supplied", "status", "upload", "route")
DECOYS += ([], ["S1"], ["S2", "S2"], ["FI"], [[]], {}, {"msg": "query"})
LONE = ("\\ud800", "\\udc00", "\\ud83d", "\\ud83d\\u0041", "\\ude00\\ud83d")
LONE += ("\\ud83d\\ud83d\\ude00",)
WRONG_ESCAPES = ("\\x", "\\u12", "\\u12g4", "\\U0041", "\\", "\\'", "\\u 041", "\\u+041")


def plainly(value):
    """Without blanks, the keys in byte order."""
    return json.dumps(value, separators=(",", ":"), sort_keys=True, ensure_ascii=False).encode()


def in_any_order(chance, value):
    """The keys of each object in an order that is drawn, with blanks."""
    return json.dumps(drawn(chance, value), separators=chance.choice(MARKS)).encode()


def drawn(chance, value):
    """A value with the keys of each object in an order that is drawn."""
    if not isinstance(value, dict):
        return value
    return {key: drawn(chance, value[key]) for key in chance.sample([*value], len(value))}


class Odd:
    """Spells values with what JSON allows and with what it does not, and counts what was done.

    The ways are "order" and "blanks", "escapes in keys" and "escapes in texts", "a key twice",
    "numbers", "depth", "surrogates" that are half a pair, and "no escapes", which only look so.
    """

    def __init__(self, chance):
        self.chance = chance
        self.rates = {}
        self.done = Counter()

    def line(self, value, rates):
        """A line that says the value, in ways each of which is taken so often where it can be."""
        self.rates, self.done = rates, Counter()
        return (self.blank() + self.spelled(value) + self.blank()).encode()

    def happens(self, way):
        """Whether something is done here in a way."""
        if self.chance.random() >= self.rates.get(way, 0):
            return False
        self.done[way] += 1
        return True

    def blank(self):
        """Blanks, or none."""
        return self.chance.choice(BLANKS) if self.happens("blanks") else ""

    def spelled(self, value):
        """A value."""
        if self.happens("depth"):
            depth = self.chance.randrange(120, 132)
            return "[" * depth + "]" * depth
        if isinstance(value, dict):
            return self.listed("{}", self.members(value))
        if isinstance(value, list):
            return self.listed("[]", map(self.spelled, value))
        if isinstance(value, str):
            return self.text(value, "texts")
        text = json.dumps(value)
        if not text.isdigit() or not self.happens("numbers"):
            return text
        return self.chance.choice(NUMBERS + POINTED if value < 2**64 else NUMBERS).format(text)

    def listed(self, marks, members):
        """The members of an object or a list, between its marks."""
        spaced = (self.blank() + member + self.blank() for member in members)
        return marks[0] + self.blank() + ",".join(spaced) + marks[1]

    def members(self, value):
        """The members of an object; some of them twice, with another value before or behind."""
        items = [*value.items()]
        if self.happens("order"):
            self.chance.shuffle(items)
        for key, member in items:
            both = [self.other_than(member), member] if self.happens("a key twice") else [member]
            for one in both if self.chance.random() < 0.8 else reversed(both):
                yield f"{self.text(key, 'keys')}{self.blank()}:{self.blank()}{self.spelled(one)}"

    def other_than(self, member):
        """A value in place of another: the same, one that is damaged, or any."""
        if isinstance(member, dict) and member and self.chance.random() < 0.5:
            return damaged(self.chance, member)
        return self.chance.choice((member, *DECOYS))

    def text(self, text, where):
        """A text, with some of its characters escaped."""
        if self.happens("surrogates"):
            return f'"{self.chance.choice(LONE)}"'
        if self.happens("no escapes"):
            return f'"{self.chance.choice(WRONG_ESCAPES)}"'
        share = 0.3 if self.happens(f"escapes in {where}") else 0
        return '"' + "".join(self.character(one, share) for one in text) + '"'

    def character(self, one, share):
        """A character, escaped where it has to be, and in this share of the calls."""
        if one not in '"\\' and ord(one) >= 0x20 and self.chance.random() >= share:
            return one
        if one in SHORT and self.chance.random() < 0.5:
            return SHORT[one]
        units = one.encode("utf-16-be")
        codes = [units[place : place + 2].hex() for place in range(0, len(units), 2)]
        return "".join("\\u" + self.chance.choice((code, code.upper())) for code in codes)
