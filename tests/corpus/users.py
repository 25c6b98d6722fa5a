"""Reads the files of user information beside it, users, sent_users and implementations. The first lines of each say its form."""
from sheets import FIELD, lines

ROLE = 68


def role(uid, scu, scp):
    """a record of the role sheet"""
    return bytes([len(uid), scu, scp, 0]) + uid.ljust(FIELD, b"\0")


def selection(uid, scu, scp):
    """a 54H"""
    return b"\x54\0" + (len(uid) + 4).to_bytes(2, "big") + len(uid).to_bytes(2, "big") + uid + bytes([scu, scp])


def unpacked(text, numbered=selection):
    """the bytes of parts apart by +, each HEX, HEX*TIMES or FIRST..LAST/SCU/SCP, one 54H (or role record) for each number with its digits as the UID; '-' is none"""
    whole = b""
    for part in text.split("+") if text != "-" else []:
        if ".." in part:
            numbers, scu, scp = part.split("/")
            first, last = numbers.split("..")
            whole += b"".join(numbered(str(k).encode(), int(scu), int(scp)) for k in range(int(first), int(last) + 1))
        else:
            part, _, times = part.partition("*")
            whole += bytes.fromhex(part) * int(times or 1)
    return whole


def users():
    """name -> (class, version name, invoked, performed, role records) that reading gives"""
    read = {}
    for what, uid, name, counts, roles in lines("users"):
        invoked, performed = counts.split()
        read[what] = unpacked(uid), unpacked(name), int(invoked), int(performed), unpacked(roles, role)
    return read


def sent_users():
    """(name, (class, version name, invoked, performed, role sheet), refusal of the RQ, of the AC, the 50H) of each line"""
    for what, uid, name, counts, roles, refusals, item in lines("sent_users"):
        invoked, performed = counts.split()
        request, accept = refusals.split()
        yield what, (unpacked(uid), unpacked(name), int(invoked), int(performed), unpacked(roles, role)), int(request), int(accept), unpacked(item)


def implementations():
    """file -> (class, version name, invoked, performed, role records) of the RQ or AC that it begins with"""
    read = {}
    for what, uid, name, counts, roles in lines("implementations"):
        invoked, performed = counts.split()
        uid, name = (b"" if text == "-" else text.encode() for text in (uid, name))
        records = (one.split(":") for one in roles.split(",") if roles != "-")
        read[what] = uid, name, int(invoked), int(performed), b"".join(role(u.encode(), int(scu), int(scp)) for u, scu, scp in records)
    return read


def walk(pdu, at, end):
    """(type, where the body stands, its length) of the items from a place of a valid PDU to another"""
    while at < end:
        length = int.from_bytes(pdu[at + 2 : at + 4], "big")
        yield pdu[at], at + 4, length
        at += 4 + length


def subitem(pdu, kind):
    """where in a valid RQ or AC the 50H's sub-item of a kind has its body, and the body's length; 0 and 0 for none"""
    at, length = next((at, length) for item, at, length in walk(pdu, 74, len(pdu)) if item == 0x50)
    return next(((at, length) for item, at, length in walk(pdu, at, at + length) if item == kind), (0, 0))
