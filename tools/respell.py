#!/usr/bin/env python3
"""Respells the repository's own definitions and lemmas: words in snake case, joined by a dash only beside the name of a definition.

Run once at the top of the repository, after the kit's own script. Names that the program gives (functions, fields, constants) and names that the
checker makes stay as they are. `--list` only prints old and new names.
"""
import glob
import re
import sys

WORD = r"[A-Za-z0-9_'\u2032-]+"
TOKEN = re.compile(r"[A-Za-z0-9_'\u2032\u00ab\u00bb\u2115\u2124-]+")

# Where the plain spelling would be the name of a field or of another definition.
BY_HAND = {
    "added-to": "added_to_lem",
    "at-party": "at_party_lem",
    "dateText": "text_of_date",
    "down-price": "down_price_is",
    "downPrice": "down_price_of",
    "first-free": "is_first_free",
    "hasRoom": "has_space",
    "in-day": "in_the_day",
    "in-table": "in_table_lem",
    "is-listed": "is_listed_lem",
    "net-energy": "net_energy_is",
    "netEnergy": "net_energy_of",
    "october-2A": "october_2_a",
    "october-2B": "october_2_b",
    "of-hour": "of_the_hour",
    "opened-by": "opened_by_lem",
    "opened-times": "opened_times_lem",
    "openingOf": "opening_with",
    "same-direction": "same_direction_lem",
    "three-sums": "three_sums_lem",
    "up-price": "up_price_is",
    "upPrice": "up_price_of",
    "wentDown": "went_down_in",
    "wentUp": "went_up_in",
    "with-receipt": "with_receipt_lem",
    "within-limit": "within_limit_lem",
}


def declared():
    names = set()
    for path in glob.glob("crates/*/specs/*.antt") + glob.glob("crates/*/proofs/*.antt"):
        for line in open(path, encoding="utf-8"):
            found = re.match(r"^\s*(?:(?:pub |abbrev |unfoldable )*)(" + WORD + r") :(?: |$)", line)
            if found:
                names.add(found.group(1))
    return names


def snake(part):
    part = re.sub(r"([a-z0-9])([A-Z])", r"\1_\2", part)
    return part.lower() if part[:1].islower() else part


def respelled(name, names):
    if name in BY_HAND:
        return BY_HAND[name]
    parts = name.replace("\u2032", "'").split("-")
    new = parts[0] if parts[0][:1].isupper() else snake(parts[0])
    for before, part in zip(parts, parts[1:]):
        def defined(p):
            return p[:1].isupper() or re.search(r"[a-z][A-Z]", p) is not None
        joint = "-" if defined(before) or defined(part) else "_"
        new += joint + (part if part[:1].isupper() else snake(part))
    return new


def main():
    names = declared()
    turn = {n: respelled(n, names) for n in sorted(names)}
    turn = {old: new for old, new in turn.items() if old != new}
    if "--list" in sys.argv:
        for old, new in turn.items():
            print(old, new)
        return
    for path in sorted(glob.glob("crates/*/**/*", recursive=True)):
        if "/out/" in path or not path.endswith((".antt", ".rt", ".edit")):
            continue
        text = open(path, encoding="utf-8").read()
        def turned(line):
            return TOKEN.sub(lambda m: turn.get(m.group(0), m.group(0)), line)
        if path.endswith(".antt") or re.match(r"file: (specs|proofs)/", text):
            new = turned(text)
        else:
            new = "".join(line if re.match(r"\s*//", line) else turned(line) for line in text.splitlines(keepends=True))
        if new != text:
            open(path, "w", encoding="utf-8").write(new)


main()
