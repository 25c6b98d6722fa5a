"""Feeds each input of this folder to the program of the command line, and compares what it prints."""
import fcntl
import os
import struct
import subprocess
import sys
import termios

FOLDER = os.path.dirname(os.path.abspath(__file__))
PROGRAM = sys.argv[1:]


def waiting(pipe):
    """how many bytes the program has not read yet"""
    return struct.unpack("i", fcntl.ioctl(pipe, termios.FIONREAD, b"\0\0\0\0"))[0]


def printed_whole(data):
    return subprocess.run(PROGRAM, input=data, stdout=subprocess.PIPE, check=True, timeout=60).stdout


def printed_by_bytes(data):
    """each byte is written once the one before it has been read, so that every read brings one byte"""
    end, into = os.pipe()
    run = subprocess.Popen(PROGRAM, stdin=end, stdout=subprocess.PIPE)
    for at in range(len(data)):
        os.write(into, data[at : at + 1])
        while waiting(end) > 0:
            if run.poll() is not None:
                return b"ended before the input"
            os.sched_yield()
    os.close(into)
    os.close(end)
    return run.communicate(timeout=60)[0]


def compare(what, printed, wanted):
    if printed != wanted:
        sys.exit(f"{what}: printed {printed.decode(errors='replace')!r}, not {wanted.decode()!r}")


files = os.listdir(FOLDER)
names = sorted(name[:-3] for name in files if name.endswith(".in"))
outputs = sorted(name[:-4] for name in files if name.endswith(".out"))
if not names or names != outputs:
    sys.exit(f"inputs without output, or outputs without input: {sorted(set(names) ^ set(outputs)) or 'there is none at all'}")
for name in names:
    with open(os.path.join(FOLDER, name + ".in"), "rb") as f:
        data = f.read()
    with open(os.path.join(FOLDER, name + ".out"), "rb") as f:
        wanted = f.read()
    compare(f"{name}.in, whole", printed_whole(data), wanted)
    compare(f"{name}.in, byte by byte", printed_by_bytes(data), wanted)

# a folder cannot be read: the end of input
with open(os.path.join(FOLDER, "empty.out"), "rb") as f:
    wanted = f.read()
folder = os.open(FOLDER, os.O_RDONLY)
compare("a read error", subprocess.run(PROGRAM, stdin=folder, stdout=subprocess.PIPE, check=True, timeout=60).stdout, wanted)
print(f"{len(names)} inputs, each whole and byte by byte")
