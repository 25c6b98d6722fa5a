"""Reads the files of sheets beside it, choices, reads and answers. The first lines of each say its form."""
import os

HERE = os.path.dirname(os.path.abspath(__file__))
RECORD, FIELD = 132, 64


def name(text):
    if text == "-":
        return b""
    text, _, times = text.partition("*")
    return (text * int(times or 1)).encode()


def record(ident, result, abstract, transfer):
    return bytes([int(ident), int(result), len(abstract), len(transfer)]) + abstract.ljust(FIELD, b"\0") + transfer.ljust(FIELD, b"\0")


def sheet(text):
    whole = bytearray()
    for part in text.split(" ; ") if text != "-" else []:
        words = part.split()
        if words[0] == "set":
            place, new = int(words[1]), bytes.fromhex(words[2])
            whole[place : place + len(new)] = new
        elif words[0] == "add":
            whole += bytes.fromhex(words[1])
        elif words[0] == "cut":
            del whole[len(whole) - int(words[1]) :]
        else:
            times = int(words[0]) if words[1] == "x" else 1
            ident, result, abstract, transfer = words[-4:]
            whole += record(ident, result, name(abstract), name(transfer)) * times
    return bytes(whole)


def answered(text):
    """the records of ID RESULT TRANSFER ; .."""
    return b"".join(record(i, r, b"", name(x)) for i, r, x in (answer.split() for answer in text.split(" ; ")))


def lines(path):
    for line in open(os.path.join(HERE, path)):
        if not line.startswith("#"):
            yield line.rstrip("\n").split(" | ")


def choices():
    """(name, proposal, site, room, refusal, answers) of each line, the answers as the records that are written."""
    for what, proposal, site, room, refusal, answers in lines("choices"):
        yield what, sheet(proposal), sheet(site), int(room), int(refusal), answered(answers) if answers != "-" else b""


def reads():
    """name -> the records that reading gives"""
    return {what: answered(text) for what, text in lines("reads")}


def answers_sent():
    """(name, sheet, refusal, items) of each answer sheet"""
    for what, text, refusal, items in lines("answers"):
        yield what, sheet(text), int(refusal), items
