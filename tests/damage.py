"""Values to damage lines and messages with, for the random runs and the odd lines."""

# For a field whose name ends so, and for any.
CODES = ("", "A" * 20, "A" * 21, "AB#1", "\u00e9", "x y", "N1")
ODD_OF = {
    "gtin": (
        *("09506000134353", "1234567A", "12345", "12345670", "095060001343520"),
        "0950600013435\u0662",
    ),
    "serial": CODES,
    "batch": CODES,
    "national": CODES,
    "serials": ([], ["S1"] * 101, ["S1", 7], ["S1", "A" * 21, ""], ["A" * 21, 7]),
    "expiry": ("270230", "270229", "281300", "280001", "2802", "28022\u0669", "280228"),
    "markets": ([], ["FI"] * 33, ["fi"], ["FI", "FIN"], ["FI", 7], "FI", ["FI"] * 32),
    "parties": ([["fi"]], [["FI"], "FI"], [["FI", 7]], [["F\u00c4"]]),
    "at": (4_102_444_800, 4_102_444_799, 2**64 - 1, 2**64, 1.5, "1800000000"),
    "user": ("", "x" * 200, "x" * 201, "\u00e9" * 101),
    "name": ("", "x" * 201),
    "to": ("gone", "Active", "active"),
    "q": (0, 2**32, 2**32 - 1),
    "v": (1, 3, "2", 2.0, 2),
    "msg": ("recipe", "withdraw", "query", 7),
    "do": ("fly", "open", "route", ["route"]),
    "found": (
        *({}, [], None),
        {"batch": "B#", "expiry": "280229", "recalled": True, "standing": "active"},
    ),
}
ODD = (None, True, 0, 2, -1, -0.0, 1.5, 2**32, 2**64)
ODD += ("", " ", "fi", [], [["fi"]], {}, {"msg": "query"})


def damaged(chance, value, depth=0):
    """The object with a field lost, added or changed, or one of its objects so."""
    name = chance.choice(sorted(value))
    inner = [key for key in sorted(value) if isinstance(value[key], dict) and value[key]]
    if inner and depth < 2 and chance.random() < 0.8:
        return {**value, inner[0]: damaged(chance, value[inner[0]], depth + 1)}
    if chance.random() < 0.15:
        return {key: value[key] for key in value if key != name}
    if chance.random() < 0.15:
        name = chance.choice(("x", "v", "national", "\u00e9\n", "q"))
    odd = next((ODD_OF[ending] for ending in ODD_OF if name.endswith(ending)), ODD)
    return {**value, name: chance.choice(odd if chance.random() < 0.7 else ODD)}
