"""Reads `places` beside it, own titles and a sought one; its first lines say its form."""
import os
import re

HERE = os.path.dirname(os.path.abspath(__file__))
PART = re.compile(r'(?:"([^"|]*)"|x([0-9a-f]+))(?:\*([0-9]+))?(?:\+|$)')


def text(field):
    """the bytes of parts apart by +, each "TEXT" or xHEX, perhaps *TIMES; - is none"""
    whole, at = b"", 0
    while field != "-" and at < len(field):
        part = PART.match(field, at)
        if not part:
            raise SystemExit(f"places: no part at {at} of {field}")
        chars, digits, times = part.groups()
        whole += (bytes.fromhex(digits) if chars is None else chars.encode()) * int(times or 1)
        at = part.end()
    return whole


def places():
    """(name, own titles, sought title, [refusal, known, place]) of each line"""
    for line in open(os.path.join(HERE, "places")):
        if not line.startswith("#"):
            name, own, sought, answer = line.rstrip("\n").split(" | ")
            refusal, known, place = answer.split()
            yield name, text(own), text(sought), [refusal, known, place]
