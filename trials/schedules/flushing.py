"""The log, its turns, what a flush does, and what a crash may leave of it, by docs/STEPS.md and FORMAT.md, for machine.py."""
from frames import PAGE

# what a step that may change the file wants: so much room in the log, and so few bytes that wait
ROOM, WAITING = 16384, 49152


class WriteFault(Exception):
    """A write, a zero or a sync failed."""


class Flushing:
    """What the machine does with its log and the pages that are to be written."""

    def is_ready(self):
        framed = sum(length + 5 for length, _, _ in self.groups)
        return self.file.log - self.written - framed - 5 >= ROOM and sum(length for length, _, _ in self.groups) <= WAITING

    def settled(self):
        return self.groups[0][1] if self.groups else len(self.order)

    def commit(self, length, reads, made=()):
        images = [page for page in reads if page not in self.logged]
        self.counts["images of pages logged again"] += len([page for page in images if page in self.logged_before])
        self.logged.update(reads)
        self.logged.update(made)
        self.groups.append((1 + 4100 * len(images) + length, len(self.order), self.file.copy()))
        for page in (*reads, *made):
            if self.frames.has(page):
                self.frames.change(page)
            else:
                self.leave(self.frames.bring(page, True))

    # -- a flush

    def flush(self):
        """The groups that wait are forced; or the least recently used page that is dirty is written to its place; or the next turn
        begins, where the log has a frame; or nothing is left. It tells which."""
        if self.groups:
            self.force()
            return "forced"
        page = self.frames.oldest_dirty()
        if page is not None:
            self.write_home(page)
            return "written"
        if self.written:
            self.switch()
            return "switched"
        return None

    def force(self):
        """All groups that wait are written as one frame. They last together, or none of them does."""
        length = sum(group[0] for group in self.groups)
        at = self.area + self.written
        self.tell("forced", at, length)
        self.counts["several groups forced as one"] += len(self.groups) > 1
        self.states.append(self.groups[-1][2])
        self.forces.append([self.clock, None])
        for call in (("w", at + 1, 4 + length), ("s", 0, 0), ("w", at, 1), ("s", 0, 0)):
            self.call(*call)
        self.forces[-1][1] = self.clock
        self.durable = self.states[-1]
        self.groups.clear()
        self.written += length + 5

    def write_home(self, page):
        self.tell("written", page)
        self.call("w", self.place(page), PAGE)
        self.counts["pages written"] += 1
        self.frames.clean(page)

    def switch(self):
        """The other log area is zeroed and the superblock of the next turn is written, each part with a sync."""
        turn = (self.turn + 1) % 2
        self.tell("switched", turn)
        self.switches.append([self.clock, None])
        zeroed = [("s", 0, 0), ("z", self.log_at(turn), self.file.log), ("s", 0, 0)]
        gate, body = ("w", PAGE * turn, 1), ("w", PAGE * turn + 1, 40)
        for call in (*zeroed, gate, ("s", 0, 0), body, ("s", 0, 0), gate, ("s", 0, 0)):
            self.call(*call)
        self.switches[-1][1] = self.clock
        self.turn, self.area, self.written = turn, self.log_at(turn), 0
        self.logged_before |= self.logged
        self.logged = set()

    def log_at(self, turn):
        return 2 * PAGE + self.file.log * (turn % 2)

    # -- what a crash may leave

    def left_at(self, clock):
        """The files that a crash may leave where the clock stands so."""
        done = sum(end is not None and end <= clock for _, end in self.forces)
        tried = any(begun + 3 <= clock and (end is None or clock < end) for begun, end in self.forces[done:done + 1])
        return self.states[done:done + 1 + tried]

    def is_writing_home(self, clock):
        """Whether a page was written to its place, and not synced, where the clock stands so."""
        at, opened = 0, False
        for kind, _, length in self.calls:
            if at == clock:
                break
            at += kind != "r"
            if kind != "r":
                opened = kind == "w" and (opened or length == PAGE)
        return opened

    def is_switching(self, clock):
        """Whether the next turn had been begun, and not ended, where the clock stands so."""
        return any(begun <= clock and (end is None or clock < end) for begun, end in self.switches)
