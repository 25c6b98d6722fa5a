"""The example of docs/HOST.md serves real senders, whose bytes come in one write: what it tells, and what it sends back.

    example.py PROGRAM
"""
import socket
import subprocess
import sys

IMPLICIT, EXPLICIT, NONE = "1.2.840.10008.1.2", "1.2.840.10008.1.2.1", ""
RELEASE_RP = bytes([6, 0, 0, 0, 0, 4, 0, 0, 0, 0])
REJECT_CALLED = bytes([3, 0, 0, 0, 0, 4, 0, 1, 1, 7])
ABORT_USER = bytes([7, 0, 0, 0, 0, 4, 0, 0, 0, 0])
ANY, EQUINE, EXOTIC = "ANY-SCP", "STORE-EQUINE", "STORE-EXOTIC"
ECHO_SENDER, CR_SENDER = "tests/listen/dcmtk_echo.in", "tests/listen/dcmtk_store_rle_refused.in"
ULTRASOUND_SENDER, OTHER_SENDER = "tests/corpus/dcmtk_store_userid_rsp.scu.bin", "tests/corpus/dcmtk_store_small_ctx.scu.bin"
FIND_SENDER = "tests/corpus/odil_find_qr.scu.bin"
ABORTED, GONE = ["AA-3, Sta1"], ["AA-4, Sta1"]
OUR_CLASS_UID, OUR_VERSION_NAME = b"2.999.1.1", b"HOST_EXAMPLE_1"

# what the senders say of themselves, and the roles that they propose
DCMTK = "OFFIS_DCMTK_367, 1.2.276.0.7230010.3.0.3.6.7", []
ODIL = "Odil 0, 1.2.826.0.1.3680043.9.55600.0", ["roles for 1.2.840.10008.5.1.4.1.2.2.1: SCU"]


def echo(store):
    return ["DT-2, Sta6", f"for {store}: context 1, command, 68 bytes", "AR-2, Sta8", "AR-4, Sta13", "AR-5, Sta1"]


# who sends, and whether only its request; the title that it is made to call; the answer, ID, result and transfer name of each context, none where it is rejected; what is told, and sent, behind it
SERVED = [
    (ECHO_SENDER, False, ANY, [(1, 0, IMPLICIT)], echo(ANY), RELEASE_RP),
    (ECHO_SENDER, False, EQUINE, [(1, 0, IMPLICIT)], echo(EQUINE), RELEASE_RP),
    (ECHO_SENDER, False, f"  {EXOTIC}", [(1, 0, IMPLICIT)], echo(EXOTIC), RELEASE_RP),
    ("tests/listen/dcmtk_echo_ppc128.in", False, ANY, [(i, 0, IMPLICIT) for i in range(1, 256, 2)], echo(ANY), RELEASE_RP),
    (CR_SENDER, False, ANY, [(1, 4, NONE), (3, 0, EXPLICIT)], ABORTED, b""),
    (CR_SENDER, False, EQUINE, [(1, 4, NONE), (3, 0, EXPLICIT)], ABORTED, b""),
    (CR_SENDER, False, EXOTIC, [(1, 3, NONE), (3, 3, NONE)], ABORTED, b""),
    (ULTRASOUND_SENDER, True, ANY, [(1, 0, EXPLICIT), (3, 0, IMPLICIT)], GONE, b""),
    (ULTRASOUND_SENDER, True, EQUINE, [(1, 3, NONE), (3, 3, NONE)], GONE, b""),
    (ULTRASOUND_SENDER, True, EXOTIC, [(1, 0, EXPLICIT), (3, 0, IMPLICIT)], GONE, b""),
    (OTHER_SENDER, True, ANY, [(1, 3, NONE)], GONE, b""),
    (FIND_SENDER, True, ANY, [(1, 3, NONE)], GONE, b""),
    (ECHO_SENDER, True, "STORE-EXO", None, ["AR-5, Sta1"], REJECT_CALLED),
]


def item(kind, body):
    return bytes([kind, 0]) + len(body).to_bytes(2, "big") + body


def acceptance(request, contexts):
    body = b"\0\1\0\0" + request[10:74] + item(0x10, b"1.2.840.10008.3.1.1.1")
    for number, result, name in contexts:
        body += item(0x21, bytes([number, 0, result, 0]) + item(0x40, name.encode()))
    body += item(0x50, item(0x51, (16384).to_bytes(4, "big")) + item(0x52, OUR_CLASS_UID) + item(0x55, OUR_VERSION_NAME))
    return b"\2\0" + len(body).to_bytes(4, "big") + body


def role_twice(request):
    """the request with its last 54H once more behind it, and the lengths to suit; its 50H is its last item"""
    start = request.rindex(b"\x54\0\0")
    role = request[start : start + 4 + request[start + 3]]
    held = request.index(b"\x50\0")
    while int.from_bytes(request[held + 2 : held + 4], "big") != len(request) - held - 4:
        held = request.index(b"\x50\0", held + 1)
    body = request[6:held] + item(0x50, request[held + 4 :] + role)
    return b"\1\0" + len(body).to_bytes(4, "big") + body


def served(program, sent):
    ours, its = socket.socketpair()
    ours.sendall(sent)
    ours.shutdown(socket.SHUT_WR)
    run = ["bash", "-c", '. tests/tools.sh; x86_run "$0"', program]
    done = subprocess.run(run, stdin=its, stderr=subprocess.PIPE, text=True, timeout=60, check=False)
    its.close()
    return done, b"".join(iter(lambda: ours.recv(4096), b""))


def told(program, sent, lines, back, what):
    done, got = served(program, sent)
    if done.returncode != 0 or done.stderr.splitlines() != lines:
        sys.exit(f"{what}: the example of docs/HOST.md ends with {done.returncode} and tells\n{done.stderr}")
    if got != back:
        sys.exit(f"{what}: the example of docs/HOST.md sends {got.hex(' ')}")


def request_of(sent):
    return sent[: 6 + int.from_bytes(sent[2:6], "big")]


for path, alone, called, contexts, behind, last in SERVED:
    with open(path, "rb") as f:
        sent = f.read()
    if alone:
        sent = request_of(sent)
    sent = sent[:10] + called.encode().ljust(16) + sent[26:]
    make, roles = ODIL if path == FIND_SENDER else DCMTK
    lines = ["AE-5, Sta2", "AE-6, Sta3", f"from {sent[26:42].decode()}: {make}", *roles, "AE-8, Sta13" if contexts is None else "AE-7, Sta6", *behind]
    told(sys.argv[1], sent, lines, (b"" if contexts is None else acceptance(sent, contexts)) + last, f"{path} to {called}")

# a sender that repeats a 54H for one UID
with open(FIND_SENDER, "rb") as f:
    repeated = role_twice(request_of(f.read()))
told(sys.argv[1], repeated, ["AE-5, Sta2", "AA-1, Sta13", "AR-5, Sta1"], ABORT_USER, f"{FIND_SENDER} with a 54H twice")
