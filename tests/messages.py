"""Messages as values of JSON, for the random runs, the storms and the loads of bench/run; and names of markets."""


def market_of(number):
    """Market names: AA, AB and so on."""
    return chr(ord("A") + number // 26) + chr(ord("A") + number % 26)


def master_of(gtin, markets, texts):
    """What is sold under a product code, and where; its seven texts by their names."""
    return {"msg": "master", "gtin": gtin, "markets": markets, **texts}


def upload_of(gtin, batch, expiry, serials):
    """Packs of a batch."""
    return {"msg": "upload", "gtin": gtin, "batch": batch, "expiry": expiry, "serials": serials}


def status_of(gtin, serial, to, user, at):
    """A pack takes a standing."""
    return {"msg": "status", "gtin": gtin, "serial": serial, "to": to, "user": user, "at": at}


def recall_of(gtin, batch, at):
    """A batch is recalled."""
    return {"msg": "recall", "gtin": gtin, "batch": batch, "at": at}


def withdrawal_of(gtin, at):
    """A product is withdrawn."""
    return {"msg": "withdraw", "gtin": gtin, "at": at, "v": 2}


def repack_of(before, after, at):
    """Packs become others; each side is a product code, a batch and serial numbers."""
    sides = {}
    for name, (gtin, batch, serials) in (("before", before), ("after", after)):
        sides |= {f"{name}_gtin": gtin, f"{name}_batch": batch, f"{name}_serials": serials}
    return {"msg": "repack", "at": at, **sides}


def query_of(gtin, serial):
    """What is there of a pack?"""
    return {"msg": "query", "gtin": gtin, "serial": serial}


def answer_of(asker, q, gtin, serial, found):
    """What was found of a pack, for the party whose message of this number was the query."""
    return {"msg": "answer", "asker": asker, "q": q, "gtin": gtin, "serial": serial, "found": found}
