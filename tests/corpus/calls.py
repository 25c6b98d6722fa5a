"""Makes replay's calls of recorded streams, and holds two answers to them together.

    calls.py SECOND REPLAY..    the second program, and the words that start replay
"""
import functools
import os
import subprocess
import sys

from sheets import RECORD, answers_sent, choices, reads
from titles import places
from users import ROLE, implementations, sent_users, subitem, unpacked, users

HERE = os.path.dirname(os.path.abspath(__file__))
KINDS = ["no valid PDU", "RQ", "AC", "RJ", "P-DATA-TF", "RELEASE-RQ", "RELEASE-RP", "ABORT"]
# the longest sheet that replay takes, and the longest output that a PDU needs
SHEET, OUT = 66000, 16390
# what an RQ that is written has for titles, what an AC echoes, and what either says of its sender where that is not what is tried
CALLED, CALLING = b" STORE-EQUINE   ", b"CART-3          "
ECHOED = bytes(range(64))
USER, USER_ITEM = (b"1.2.3", b"", 1, 1, b""), bytes.fromhex("50000011510000040000400052000005312e322e33")
# one context: its sheet and its item, by the type of the PDU
CONTEXT = {
    1: (b"\1\0\1\1" + b"1".ljust(64, b"\0") * 2, bytes.fromhex("2000000e0100000030000001314000000131")),
    2: (b"\1\0\0\1" + b"".ljust(64, b"\0") + b"1".ljust(64, b"\0"), bytes.fromhex("21000009010000004000000131")),
}
# the machine call that sends a PDU of a type: the record before it (state, gathered, deaf, ARTIM, requestor, peer maximum), the action, the state after
SENDS = {1: ("c", "4 0 0 0 1 0", "2", "5"), 2: ("a", "3 0 0 0 0 100", "7", "6")}
# the state that waits for a PDU of a type, and its marks: ARTIM, requestor
WAITS = {1: "2 0 0 1 0", 2: "5 0 0 0 1", 3: "5 0 0 0 1", 4: "6 0 0 0 0", 5: "6 0 0 0 0", 6: "7 0 0 0 0", 7: "6 0 0 0 0"}


def words(data):
    return data.hex() or "-"


def pdus(stream):
    """The PDUs of a stream, by their length fields; a last part that is not whole."""
    at = 0
    while at < len(stream):
        end = at + 6 + int.from_bytes(stream[at + 2 : at + 6], "big")
        yield at, stream[at:end]
        at = end


def pdvs(body):
    at, n = 0, 0
    while at + 4 <= len(body):
        at += 4 + int.from_bytes(body[at : at + 4], "big")
        n += 1
    return n


def reading(pdu):
    """The calls that read a PDU, by its type."""
    kind = pdu[0]
    text = words(pdu)
    if kind == 1:
        called, calling = words(pdu[10:26]), words(pdu[26:42])
        return [f"Q {text} {SHEET} {SHEET}", f"V {called}", f"V {calling}", f"E {called} {calling}", f"T {called} {called}"]
    if kind == 4:
        return [f"D {text} {k}" for k in range(pdvs(pdu[6:]) + 1)]
    return [{2: f"A {text} {SHEET} {SHEET}", 3: f"J {text}", 7: f"B {text}"}.get(kind, f"K {text}")]


def receiving(pdu):
    """The calls that receive a PDU, in two pieces, in the state that waits for it."""
    half = min(len(pdu) // 2, 17000)
    rest = pdu[half : half + 17000]
    return [f"r {WAITS[pdu[0]]} 0 16390 - 16390 {words(pdu[:half])}", f"r = {words(rest)}"]


def request(kind, items):
    """An RQ or AC with these items behind its fixed fields, whose reserved bytes have any value."""
    fixed = b"\0\1\xde\xad" + CALLED + CALLING + bytes(range(100, 132))
    return bytes([kind, 0xFF]) + (len(fixed) + len(items)).to_bytes(4, "big") + fixed + items


def turned(kind, items):
    """The items of the other kind of PDU, with the same 50H: of lists that begin with the application name 1 and CONTEXT's item, and far from the limit of 16,384, which a longer context would pass."""
    lead = bytes.fromhex("1000000131")
    mine, theirs = lead + CONTEXT[kind][1], lead + CONTEXT[3 - kind][1]
    return theirs + items[len(mine) :] if items.startswith(mine) and len(items) < 16000 else b""


def digest(buffer):
    """of a whole lent buffer, as docs/REPLAY.md has it"""
    h = 1
    for b in buffer:
        h = (h * 257 + b + 1) % 4294967291
    return h


@functools.lru_cache(maxsize=None)
def untouched(byte, length):
    """the digest of a lent buffer that nothing was written to"""
    return digest(bytes([byte]) * length)


def refused(refusal, sheet, roles):
    """The answer of a reading call that is refused: no field, and both sheets as they were lent."""
    return [str(refusal)] + ["0"] * 12 + [str(untouched(0xC3, sheet)), str(untouched(0xC3, roles))]


def shown(where, pdu, user):
    """The words from CLASS_AT to ROLES that reading a valid RQ or AC gives."""
    uid, name, invoked, performed, roles = user
    uid_at, name_at = subitem(pdu, 0x52), subitem(pdu, 0x55)
    if [pdu[at : at + length] for at, length in (uid_at, name_at)] != [uid, name]:
        sys.exit(f"{where}: it has another class UID or version name than the file says")
    return [str(n) for n in (*uid_at, *name_at, invoked, performed, len(roles) // ROLE)]


def user_read(where, pdu, user):
    """The calls that read the user information of a valid RQ or AC: with room for its roles and a little more, with just that room, and with either sheet too short."""
    call, roles = f"{' QA'[pdu[0]]} {words(pdu)}", user[4]
    if len(roles) > SHEET:
        return [(where, f"{call} {SHEET} {SHEET}", refused(2, SHEET, SHEET))]
    calls = []
    for room in (len(roles) + 5, len(roles)):
        lent = roles + b"\xc3" * (room - len(roles))
        calls.append((where, f"{call} {SHEET} {room}", ["0", "1", None, None, None, None, *shown(where, pdu, user), None, str(digest(lent))]))
    if roles:
        calls.append((where, f"{call} {SHEET} {len(roles) - 1}", refused(2, SHEET, len(roles) - 1)))
    calls.append((where, f"{call} {RECORD - 1} {len(roles)}", refused(2, RECORD - 1, len(roles))))
    return calls


def user_words(user):
    uid, name, invoked, performed, roles = user
    return f"{words(uid)} {words(name)} {invoked} {performed} {words(roles)}"


def written(kind, contexts, user_item):
    """The RQ or AC that is written with these context items and this 50H, from the titles or ECHOED and the application name 1."""
    body = b"\0\1\0\0" + (CALLED + CALLING + bytes(32) if kind == 1 else ECHOED) + bytes.fromhex("1000000131") + contexts + user_item
    return bytes([kind, 0]) + len(body).to_bytes(4, "big") + body


def user_sent(where, user, refusal, kind, item):
    """The calls that write an RQ or AC with this user information, or are refused: by themselves, with just the room and one byte less, and as a local event."""
    sheet, contexts = CONTEXT[kind]
    first = f"{words(CALLED)} {words(CALLING)}" if kind == 1 else words(ECHOED)
    contents = f"{first} 31 {user_words(user)} {words(sheet)}"
    sent = written(kind, contexts, item) if refusal == 0 else b""
    out = str(digest(sent + b"\x5a" * (OUT - len(sent))))
    calls = [(where, f"{kind} {contents} {OUT}", [str(refusal), str(len(sent)), out])]
    if sent:
        calls.append((where, f"{kind} {contents} {len(sent)}", ["0", str(len(sent)), str(digest(sent))]))
        calls.append((where, f"{kind} {contents} {len(sent) - 1}", ["2", "0", str(untouched(0x5A, len(sent) - 1))]))
    gather = str(untouched(0xA5, OUT))
    letter, record, action, after = SENDS[kind]
    state, *rest = record.split()
    answer = ["0", action, "0", str(len(sent)), "0", after] if sent else [str(refusal), "0", "0", "0", "0", state]
    calls.append((where, f"{letter} {record} {OUT} - {OUT} {contents}", [*answer, *rest, gather, out]))
    if refusal:
        # in Sta6, where the cell is blank, contents are not looked at
        blank = "6 0 0 0 0 0"
        calls.append((where, f"{letter} {blank} {OUT} - {OUT} {contents}", ["1", "0", "0", "0", "0", *blank.split(), gather, out]))
    return calls


def answers(command, lines):
    run = subprocess.run(command, input="".join(line + "\n" for line in lines).encode(), stdout=subprocess.PIPE, check=True)
    return run.stdout.decode().split("\n")[:-1]


def main():
    second, replay = sys.argv[1], sys.argv[2:]
    calls = []  # where from, the call, what its answer starts with, or None
    makes = implementations()
    seen = dict.fromkeys(KINDS, 0)
    for line in open(os.path.join(HERE, "expected")):
        name, kinds, *fields = line.split()
        stream = open(os.path.join(HERE, name), "rb").read()
        found = list(pdus(stream))
        if kinds == "long":
            calls += [(name, call, None) for call in receiving(stream)]
            continue
        if len(found) != len(kinds.split(",")):
            sys.exit(f"{name}: {len(found)} PDUs, {kinds} expected")
        for (at, pdu), kind in zip(found, kinds.split(",")):
            where = f"{name} at {at}"
            seen[KINDS[int(kind)]] += 1
            calls.append((where, f"K {words(pdu)}", [kind]))
            calls += [(where, call, None) for call in reading(pdu) + receiving(pdu)]
        if fields:
            maximum, records = fields
            read = next(k for k, (_, call, _) in enumerate(calls) if call[0] in "QA" and calls[k][0] == f"{name} at 0")
            fields = ["0", "1", None, None, maximum, records]
            if name in makes:
                user = makes.pop(name)
                lent = user[4] + b"\xc3" * (SHEET - len(user[4]))
                fields += [*shown(name, found[0][1], user), None, str(digest(lent))]
            calls[read] = (calls[read][0], calls[read][1], fields)
    if makes:
        sys.exit(f"implementations: no stream with fields in expected is named {', '.join(makes)}")
    count = len(calls)
    for line in open(os.path.join(HERE, "names")):
        good, name, source = line.rstrip("\n").split(" ", 2)
        calls.append((source, f"N {words(name.encode())}", [good]))
    names = len(calls) - count
    records, informed, user_reads = reads(), users(), []
    for line in open(os.path.join(HERE, "items")):
        good, kind, name, text = line.split()
        code = {"RQ": 1, "AC": 2}[kind]
        pdu = request(code, unpacked(text))
        calls.append((name, f"K {words(pdu)}", [str(code * int(good))]))
        read = ["0"] if good == "1" else refused(7, SHEET, SHEET)
        if name in records:
            sheet = records.pop(name)
            read += ["1", None, None, None, str(len(sheet) // RECORD)] + [None] * 7 + [str(digest(sheet + b"\xc3" * (SHEET - len(sheet))))]
        user = informed.pop(name, None)
        if user:
            user_reads += user_read(name, pdu, user)
            read = refused(2, SHEET, SHEET) if len(user[4]) > SHEET else read
        calls.append((name, f"{' QA'[code]} {words(pdu)} {SHEET} {SHEET}", read))
        other = turned(code, unpacked(text)) if name.startswith("e4-") else b""
        if other:
            where, code = f"{name}, the 50H in the other kind", 3 - code
            pdu = request(code, other)
            user_reads.append((where, f"K {words(pdu)}", [str(code * int(good))]))
            user_reads += user_read(where, pdu, user) if user else [(where, f"{' QA'[code]} {words(pdu)} {SHEET} {SHEET}", read)]
    if records:
        sys.exit(f"reads: no list of items is named {', '.join(records)}")
    if informed:
        sys.exit(f"users: no list of items is named {', '.join(informed)}")
    items = (len(calls) - count - names) // 2
    for what, proposal, site, room, refusal, chosen in choices():
        lent = chosen + b"\xc3" * (room - len(chosen))
        calls.append((what, f"C {words(proposal)} {words(site)} {room}", [str(refusal), str(len(chosen) // RECORD), str(digest(lent))]))
    chosen = len(calls) - count - names - 2 * items
    for what, sheet, refusal, text in answers_sent():
        sent = written(2, unpacked(text), USER_ITEM) if refusal == 0 else b""
        out = sent + b"\x5a" * (OUT - len(sent))
        calls.append((what, f"2 {words(ECHOED)} 31 {user_words(USER)} {words(sheet)} {OUT}", [str(refusal), str(len(sent)), str(digest(out))]))
    sheets = len(calls) - count - names - 2 * items - chosen
    sought = [(what, f"T {words(own)} {words(title)}", answer) for what, own, title, answer in places()]
    user_sends = [call for what, user, *refusals, item in sent_users() for kind in (1, 2) for call in user_sent(what, user, refusals[kind - 1], kind, item)]
    calls += sought + user_reads + user_sends
    lines = [call for _, call, _ in calls]
    answered = [answers([second, "answer"], lines), answers(replay, lines)]
    for program, got in zip(["the second program", "replay"], answered):
        if len(got) != len(lines):
            sys.exit(f"{program}: {len(got)} answers to {len(lines)} calls")
    if not all((count, names, items, chosen, sheets, sought, user_reads, user_sends)):
        sys.exit("there is no recorded stream, no name, no list of items, no choice, no answer sheet, no sought title or no user information")
    for (where, call, expected), theirs, ours in zip(calls, *answered):
        if len(ours.split()) < len(expected or []):
            sys.exit(f"{where}: {call[:200]}\n  answer: {ours}\n  expected {len(expected)} words")
        if ours != theirs:
            sys.exit(f"{where}: {call[:200]}\n  second: {theirs}\n  replay: {ours}")
        for got, wanted in zip(ours.split(), expected or []):
            if wanted is not None and got != wanted:
                sys.exit(f"{where}: {call[:200]}\n  answer: {ours}\n  expected: {' '.join(w or '*' for w in expected)}")
    kinds = ", ".join(f"{n} {kind}" for kind, n in seen.items() if n)
    print(f"{kinds}; {count} calls on them, {names} names, {items} lists of items, {chosen} choices, {sheets} answer sheets, {len(sought)} sought titles and {len(user_reads) + len(user_sends)} calls on user information answered alike and as expected")


main()
