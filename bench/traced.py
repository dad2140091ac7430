"""What a run did: by the calls of the system that strace or perf tells, or by the log in its file."""
import re
import subprocess

WRITE = re.compile(r'pwrite64\(\d+, "([^"]*)"(?:\.\.\.)?, (\d+), (\d+)\) += \d+$')
# what of a write strace prints: more than the longest frame of a text here
SHOWN = 66_000
# what perf tells of calls, and a line of it
WRITES, SYNCS = ("pwrite64", "write", "pwritev"), ("fdatasync", "fsync", "msync")
CALLS = [f"syscalls:sys_{side}_{call}" for call in (*WRITES, *SYNCS, "openat", "futex") for side in ("enter", "exit")]
CALL = re.compile(r"\s*(\d+)\s+syscalls:sys_(enter|exit)_(\w+): (.*)$")
FIELD = re.compile(r"(\w+): 0x([0-9a-f]+)")
O_DSYNC = 0o10000


def op_length(payload, at, k):
    """How many bytes an operation has behind its tag."""
    tag, at, begun = payload[at], at + 1, at + 1
    if tag == 1:
        at += 5 + 8 * k + payload[at + 4 + 8 * k]
    elif tag == 2:
        at += 4 + 8 * k
    elif tag == 3:
        at += 13 + payload[at + 12]
        at += 1 + 10 * payload[at]
    elif tag == 4:
        at += 5 + payload[at + 4] + 4 + 16 * k
    else:
        at += {5: 12, 6: 8}[tag]
    return at - begun


def tags(payload, k=2):
    """The operations of a payload's groups, as docs/FORMAT.md spells them."""
    at, found = 0, []
    while at < len(payload):
        at += 1 + 4100 * payload[at]
        found.append(payload[at])
        at += 1 + op_length(payload, at, k)
    assert at == len(payload)
    return found


def counts(drive, folder, text):
    """Of a run of `drive`: syncs, bytes written, forces, the groups in them, and switches of the log."""
    log, told = f"{folder}/trace", dict.fromkeys(("syncs", "bytes", "forces", "groups", "switches"), 0)
    drive.run(folder, "drive", text, ["strace", "-f", "-xx", "-s", str(SHOWN), "-e", "trace=pwrite64,fdatasync", "-o", log])
    with open(log, encoding="ascii", errors="replace") as lines:
        for line in lines:
            told["syncs"] += "fdatasync(" in line
            found = WRITE.search(line)
            if found:
                count_write(told, found, 8192 + 2 * drive.log)
    return told


def count_write(told, found, end):
    """Counts a write: a superblock is there with its open gate; a frame has its length in front, and zeros are no frame."""
    shown, size, at = found[1], int(found[2]), int(found[3])
    told["bytes"] += size
    if at < 8192:
        told["switches"] += shown == r"\xa5"
    elif at < end and size > 1 and not shown.startswith(r"\x00\x00\x00\x00"):
        told["forces"] += 1
        told["groups"] += len(tags(bytes.fromhex(shown.replace(r"\x", ""))[4:]))


def logged(file, log):
    """How many frames and groups the log of a file has since it was last switched, and how many of these change a record."""
    with open(file, "rb") as it:
        bodies = it.read(8192)
        turns = [bodies[at + 10] if bodies[at] == 0xA5 else None for at in (0, 4096)]
        it.seek(8192 + log * (turns[0] is None or turns[1] == (turns[0] + 1) % 4))
        area = it.read(log)
    at, forces, found = 0, 0, []
    while at + 5 <= log and area[at] == 0xA5:
        behind = at + 5 + int.from_bytes(area[at + 1:at + 5], "big")
        found += tags(area[at + 5:behind])
        at, forces = behind, forces + 1
    return forces, len(found), sum(tag <= 2 for tag in found)


def recording(data):
    """The words in front of a program whose calls, those of all its threads, perf writes to a file. It stops none of them for that."""
    return ["perf", "record", "-q", "-m", "16M", "-o", data, "-e", ",".join(CALLS)]


def recorded(data):
    """Each call that perf wrote down and that ended: its thread, its name, what it was given, and what it came to."""
    words, begun = ["perf", "script", "-i", data, "-F", "tid,event,trace"], {}
    done = subprocess.run(words, check=True, capture_output=True, text=True)
    assert "lost" not in (done.stdout + done.stderr).lower()
    for found in filter(None, map(CALL.match, done.stdout.splitlines())):
        thread, side, name, rest = found.groups()
        if side == "enter":
            begun[thread] = {field: int(value, 16) for field, value in FIELD.findall(rest)}
        elif thread in begun:
            value = int(rest, 16)
            yield thread, name, begun.pop(thread), value - 2**64 if value >> 63 else value


def calls(data):
    """Of any program's run: syncs, bytes but those to its outputs, and what waits tells. A write to a file that was opened to sync each
    one is a sync, too."""
    told, syncing, writers, futexes = {"syncs": 0, "bytes": 0}, set(), set(), []
    for thread, name, given, value in recorded(data):
        if name == "futex":
            futexes.append((thread, given["op"], given["uaddr"]))
        elif name == "openat" and given["flags"] & O_DSYNC:
            syncing.add(value)
        elif name in SYNCS:
            told["syncs"] += 1
        elif name in WRITES and given["fd"] <= 2:
            writers.add(thread)
        elif name in WRITES and value > 0:
            told["bytes"] += value
            told["syncs"] += given["fd"] in syncing
    return told | waits(futexes, writers)


def waits(futexes, writers):
    """How many futex calls wait, but for a thread's end, and how many wake; and how often a thread that writes replies waits at a bell:
    anywhere but at the lock, at which most threads wait."""
    told, places = {"waits": 0, "wakes": 0}, {}
    for thread, op, place in futexes:
        told["wakes"] += op & 127 in (1, 10)
        if op & 127 in (0, 9) and op != 265:
            told["waits"] += 1
            places.setdefault(place, []).append(thread)
    lock = max(places, key=lambda place: len(set(places[place])), default=None)
    return told | {"bells": sum(thread in writers for place, threads in places.items() if place != lock for thread in threads)}
