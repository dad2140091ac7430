"""What the opening of a file answers to its bytes, and what it leaves there, as a plain program that
knows nothing of the project's crates. It follows docs/FORMAT.md, and has the whole file before it.
"""
import collections
import zlib

from reading import FIELDS, OPEN, PAGE, Bad, body_bytes, log_at, newest, page_at, page_of, payloads, size_of, superblock, whole_page
from replaying import replayed
from model import audit


# what is said, its name and a finer one, and the calls that write, zero or sync
Answer = collections.namedtuple("Answer", "told name fine calls")


def superblock_calls(turn, body):
    at, sync = PAGE * (turn % 2), ("sync",)
    return [("write", at, b"\0"), sync, ("write", at + 1, body), sync, ("write", at, bytes([OPEN])), sync]


def renewal(disk, turn, meta, touched):
    """The calls by which an opening begins the next turn."""
    next_turn = (turn + 1) % 4
    at = PAGE * (next_turn % 2)
    there = superblock(disk[at + 1:at + 41], next_turn % 2)
    hides = disk[at] != OPEN and there is not None and there[0] == next_turn and there[1] != meta
    pages = [("write", page_at(number, meta), whole_page(page)) for number, page in sorted(touched.items())]
    hidden = [("zero", at + 1, 40), ("sync",)] if hides else []
    area = [("sync",), ("zero", log_at(next_turn, meta), meta["log"]), ("sync",)]
    return [("sync",)] + pages + hidden + area + superblock_calls(next_turn, body_bytes(next_turn, meta))


def left_by(calls, disk):
    """The bytes behind these calls."""
    left = bytearray(disk)
    for name, *of in calls:
        if name != "sync":
            at, piece = of if name == "write" else (of[0], bytes(of[1]))
            left[at:at + len(piece)] = piece
    return bytes(left)


def refused(told, name, fine=None):
    """A refusal comes before all calls that write, zero or sync."""
    return Answer(told, name, fine or name, [])


def without_super(disk):
    """What is refused before the log is read, or None."""
    if len(disk) < 2 * PAGE:
        return refused(f"small {2 * PAGE} {len(disk)}", "small, two places")
    found = newest(disk)
    if found is None:
        return refused("no super", "no super")
    if len(disk) < size_of(found[1]):
        return refused(f"small {size_of(found[1])} {len(disk)}", "small, layout")
    return None


def behind_log(disk, turn, meta):
    """What the file says of itself behind its log, and the pages that this touched; or a refusal."""
    touched, start = {}, log_at(turn, meta)
    for frame, payload in enumerate(payloads(disk[start:start + meta["log"]])):
        try:
            meta = replayed(payload, meta, touched)
        except Bad as why:
            return refused(f"bad group {frame}", "bad group", f"bad group, {why}")
    return meta, touched


def audited(disk, meta, touched):
    """What the audit says of the file, whose other pages stand in their places."""
    def page(number):
        at = page_at(number, meta)
        return touched[number] if number in touched else page_of(disk[at:at + PAGE])

    return audit(meta, [page(i) for i in range(1, min(meta["high"], meta["pages"]) + 1)])


def opened(disk):
    refusal = without_super(disk)
    if refusal:
        return refusal
    turn, meta = newest(disk)
    found = behind_log(disk, turn, meta)
    if isinstance(found, Answer):
        return found
    meta, touched = found
    told = audited(disk, meta, touched)
    if told[0] != "ok":
        return refused(f"damaged {told[2]} S{told[1]}", f"S{told[1]}")
    fields = " ".join(str(meta[name]) for name, _ in FIELDS)
    return Answer(f"ok {told[1]} {fields}", "opens", f"opens, {len(touched)} pages touched", renewal(disk, turn, meta, touched))


def calls_text(calls):
    """The calls, with a sum of what each writes."""
    spelled = {"sync": lambda: " s", "zero": lambda at, length: f" z{at}+{length}", "write": lambda at, piece: f" w{at}+{len(piece)}:{zlib.crc32(piece):08x}"}
    return "".join(spelled[name](*of) for name, *of in calls)


def blocks_text(before, after):
    """Which blocks of 4,096 bytes are other ones afterwards, with a sum of each."""
    differ = (at for at in range(0, len(after), PAGE) if before[at:at + PAGE] != after[at:at + PAGE])
    return "".join(f" {at // PAGE}:{zlib.crc32(after[at:at + PAGE]):08x}" for at in differ)


def all_said(disk, answer, whole):
    """All that is compared: what is said and each call; and of some files how many calls and which blocks."""
    line = answer.told + calls_text(answer.calls)
    if not whole:
        return line
    return f"{answer.told} calls {len(answer.calls)}{blocks_text(disk, left_by(answer.calls, disk))} and {line}"
