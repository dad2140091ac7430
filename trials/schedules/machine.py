"""The step machine in plain Python, by docs/STEPS.md, FORMAT.md and TREE.md: what `drive` prints of a text, the calls that it makes of
the disk, and the pages that it leaves. Pages are as trees.py has them. Calls of chosen numbers fail; nothing is out of memory.
"""
import collections
import os

from flushing import Flushing, WriteFault
from frames import PAGE, Frames
from trees import has, leaf_at, meets, outside, part, split, way_to, weight, with_part
from workers import MERGER, POSTER, Job, Workers

# whether deletes add jobs to merge
MERGES = os.environ.get("TRIAL_MERGES", "1") == "1"
SHARED, UPDATE, ALONE = "S", "U", "X"


class Line:
    def __init__(self, number, session, verb, point, body):
        self.number, self.session, self.verb, self.point, self.body = number, session, verb, point, body
        self.box = tuple(zip(point, body)) if verb == "search" else tuple((value, value) for value in point)
        self.asks = verb in ("lookup", "search")


class ReadFault(Exception):
    """A read failed."""


class Machine(Flushing, Workers):
    """A run over a file. `step` takes its steps; `said` is the text then, and `durable` the file that an opening finds. `events` tells
    which step read, left, wrote and forced what. The calls of the numbers `fails` fail, counted from the first one of the steps."""

    def __init__(self, file, lines, turn=1, fails=(), frames=None):
        self.file, self.durable = file.copy(), file.copy()
        self.turn, self.area, self.fails, self.frames = turn % 2, self.log_at(turn), fails, Frames(frames)
        self.steps, self.events, self.calls, self.clock, self.stopped = 0, [], [], 0, False
        # the file at first and behind each force, and between which values of the clock each force and each switch was; when the
        # lines were answered
        self.states, self.forces, self.switches, self.answered = [self.durable], [], [], []
        self.lines = collections.defaultdict(collections.deque)
        for line in lines:
            self.lines[line[1]].append(Line(*line))
        self.all = sorted(line[0] for line in lines)
        self.at = collections.defaultdict(lambda: ("idle",))
        self.jobs, self.order, self.groups, self.replies = [], [], [], []
        # the bytes of the frames of this turn, the pages that its log has, and those that the log of an earlier one had
        self.written, self.logged, self.logged_before = 0, set(), set()
        self.counts, self.merges = collections.Counter(), []

    # -- what an actor holds and wants

    def held(self, actor):
        at = self.at[actor]
        kind = at[0]
        if kind == "walk":
            return {} if at[2] is None else {at[2]: self.walk_mode(actor, at, self.file.pages[at[2]][0])}
        if kind == "split":
            return {at[2]: ALONE}
        if kind == "put":
            return {at[2]: ALONE, at[3]: ALONE}
        if kind in ("child", "promote", "scan", "merge promote"):
            return {at[2]: UPDATE}
        if kind == "try":
            return {at[2]: UPDATE, at[3]: SHARED}
        if kind in ("again", "keep"):
            return {at[2]: ALONE}
        if kind == "decide":
            return {at[2]: ALONE, at[3]: ALONE}
        return {}

    def walk_mode(self, actor, at, level):
        if actor > 16:
            return UPDATE if level == at[1].level else SHARED
        return ALONE if level == 0 and not at[1].asks else SHARED

    def goal(self, actor, at):
        if actor > 16:
            return at[1].point
        return tuple(low for low, _ in at[3][-1]) if at[1].verb == "search" else at[1].point

    def wanted(self, actor):
        """The page and the mode that the next step wants, and whether it may change the file."""
        at, file = self.at[actor], self.file
        kind = at[0]
        if kind == "walk":
            if at[2] is None:
                page, level = file.root, file.height - 1
            else:
                held = file.pages[at[2]]
                leaf, _ = leaf_at(held, self.goal(actor, at))
                page, level = leaf[1], held[0] - (leaf[0] == "child")
            return page, self.walk_mode(actor, at, level), actor <= 16 and level == 0 and not at[1].asks
        if kind in ("split", "put"):
            return None, None, True
        if kind == "grow":
            return file.root, ALONE, True
        if kind in ("child", "again"):
            leaf, _ = leaf_at(file.pages[at[2]], at[1].point)
            return leaf[1], SHARED, kind == "again"
        if kind in ("promote", "merge promote"):
            return at[2], ALONE, False
        if kind == "scan":
            return at[3], SHARED, False
        if kind == "try":
            return at[4], SHARED, False
        if kind == "keep":
            return at[3], ALONE, False
        if kind == "decide":
            return at[4], ALONE, True
        return None, None, False

    def is_blocked(self, actor, page, mode):
        for other, at in self.at.items():
            # what an actor holds stands in its place
            if other != actor and page in at:
                theirs = self.held(other).get(page)
                if theirs and (ALONE in (mode, theirs) or mode == theirs == UPDATE):
                    return True
        return False

    def add(self, job):
        if job not in self.jobs and len(self.jobs) < 256:
            self.jobs.append(job)

    # -- pages in memory

    def tell(self, *event):
        self.events.append((self.steps, *event))

    def call(self, kind, at, length):
        number = len(self.calls)
        self.calls.append((kind, at, length))
        self.clock += kind != "r"
        if number in self.fails:
            raise ReadFault if kind == "r" else WriteFault

    def place(self, page):
        return 8192 + 2 * self.file.log + PAGE * (page - 1)

    def leave(self, page):
        if page is not None:
            self.tell("left", page)
            self.counts["pages that left"] += 1

    def come(self, page):
        """The page is read, unless it is in memory."""
        if not self.frames.has(page):
            self.tell("read", page)
            self.call("r", self.place(page), PAGE)
            self.counts["pages read"] += 1
            self.leave(self.frames.bring(page, False))

    def come_to_number(self):
        """The head of the free chain comes, where a page is to be made and one is free."""
        if self.file.free:
            self.come(self.file.free)

    # -- steps

    def step(self, actor, count=1):
        """So many steps of one actor. Where one changes nothing, those behind it don't, either."""
        if isinstance(actor, str):
            actor = {"p": POSTER, "c": MERGER, "f": 19}.get(actor) or int(actor)
        last, self.in_vain = self.steps + count, False
        while self.steps < last and not self.in_vain and not self.stopped:
            self.steps += 1
            try:
                self.take_step(actor, self.at[actor])
            except WriteFault:
                self.stopped = True
        self.steps = last

    def take_step(self, actor, at):
        if actor == 19:
            done = self.flush()
            self.in_vain = done is None
            self.counts[f"f: {done}"] += 1
            return
        if at[0] == "idle":
            return self.take_job(actor) if actor > 16 else self.take_line(actor)
        if at[0] == "await":
            return self.wait(actor, *at[1:])
        page, mode, may = self.wanted(actor)
        if page is not None and self.is_blocked(actor, page, mode):
            self.counts["blocked"] += 1
            self.in_vain = True
            return
        if self.is_unready(page, may):
            return self.help()
        pins = list(self.held(actor))
        try:
            if page is not None:
                self.come(page)
                self.frames.pin(page)
                pins.insert(0, page)
            getattr(self, "do_" + at[0].replace(" ", "_"))(actor, at, page)
        except ReadFault:
            self.counts["read faults"] += 1
            self.give_up(actor, at, "read fault")
        self.hold(actor, pins)

    def hold(self, actor, pins):
        """The pins go over from these pages to those of the actor's latches."""
        for page in pins:
            self.frames.unpin(page)
        for page in self.held(actor):
            self.frames.pin(page)

    def is_unready(self, page, may):
        if may:
            return not self.is_ready() or self.frames.places() < 3
        crowded = page is not None and not self.frames.has(page) and self.frames.places() == 0
        self.counts["crowded"] += crowded
        return crowded

    def help(self):
        """One flush in place of the step. Something is left always: where no page is dirty there are places, and where the log has no
        frame it has room."""
        self.counts["helped"] += 1
        done = self.flush()
        assert done is not None
        self.counts[f"helped: {done}"] += 1

    def answer(self, number, reply):
        self.replies.append((number, reply))
        self.answered.append(self.clock)

    def give_up(self, actor, at, reply):
        """The line is answered so, outside the order; a worker's job is dropped."""
        self.at[actor] = ("idle",)
        if actor <= 16:
            self.answer(at[1].number, reply)

    def take_line(self, actor):
        if not self.lines[actor]:
            self.in_vain = True
            return
        line = self.lines[actor][0]
        for other in range(1, 17):
            at = self.at[other] if other in self.at else ("idle",)
            if other != actor and at[0] in ("walk", "split", "put") and meets(at[1].box, line.box) and not (at[1].asks and line.asks):
                self.counts["blocked by a box"] += 1
                self.in_vain = True
                return
        self.lines[actor].popleft()
        self.at[actor] = ("walk", line, None, [line.box], [])

    def take_job(self, actor):
        kind = "post" if actor == POSTER else "merge"
        job = next((job for job in self.jobs if job.kind == kind), None)
        if job is None:
            self.in_vain = True
            return
        self.jobs.remove(job)
        if kind == "post" and job.level == self.file.height:
            self.at[actor] = ("grow", job)
        elif job.level < self.file.height:
            self.at[actor] = ("walk", job, None)

    def wait(self, actor, number, reply, place):
        if place < self.settled():
            self.answer(number, reply)
            self.at[actor] = ("idle",)
        else:
            self.force()

    def effect(self, actor, line, reply, length=None, reads=()):
        place = len(self.order)
        if length is not None:
            self.commit(length, reads)
        self.order.append(line.number)
        self.at[actor] = ("await", line.number, reply, place)

    def put_page(self, number, frag):
        level, box, _ = self.file.pages[number]
        self.file.pages[number] = (level, box, frag)

    def do_walk(self, actor, at, number):
        page = self.file.pages[number]
        leaf, area = leaf_at(page, self.goal(actor, at))
        if actor > 16 and page[0] == at[1].level and leaf[0] == "child":
            return self.arrive(actor, at[1], number)
        if leaf[0] != "records":
            if leaf[0] == "sibling":
                self.add(Job("post", page[0] + 1, self.goal(actor, at)))
            self.at[actor] = at[:2] + (number,) + at[3:]
            return
        self.at_records(actor, at, number, leaf, area)

    def at_records(self, actor, at, number, leaf, area):
        line, records = at[1], leaf[1]
        body = dict(records).get(line.point)
        if line.verb == "search":
            return self.gather(actor, at, records, area)
        if line.verb == "lookup":
            return self.effect(actor, line, "none" if body is None else f"found ={body}")
        if line.verb == "insert":
            if body is not None:
                return self.effect(actor, line, "duplicate")
            if not self.may_put(number, leaf):
                self.at[actor] = ("split", line, number)
                return
            return self.put(actor, line, number)
        if body is None:
            return self.effect(actor, line, "absent")
        frag = self.file.pages[number][2]
        new = "records", tuple(r for r in records if r[0] != line.point)
        self.put_page(number, with_part(frag, way_to(frag, line.point), new))
        self.effect(actor, line, "ok", 5 + 8 * self.file.k, (number,))
        if MERGES and 4 * weight(self.file.pages[number][2]) <= self.file.caps[0]:
            self.add(Job("merge", 1, line.point))

    def may_put(self, number, leaf):
        return weight(self.file.pages[number][2]) - weight(leaf) + len(leaf[1]) + 1 <= self.file.caps[0]

    def put(self, actor, line, number):
        frag = self.file.pages[number][2]
        way = way_to(frag, line.point)
        records = part(self.file.pages[number][1], frag, way)[1][1]
        self.put_page(number, with_part(frag, way, ("records", tuple(sorted(records + ((line.point, line.body),))))))
        self.effect(actor, line, "ok", 5 + 8 * self.file.k + 1 + len(line.body), (number,))

    def gather(self, actor, at, records, area):
        _, line, _, rest, found = at
        box = rest[-1]
        found = found + [r for r in records if has(box, r[0])]
        rest = rest[:-1] + outside(box, area)
        self.counts["walks of searches"] += 1
        if rest:
            self.at[actor] = ("walk", line, None, rest, found)
            return
        text = "".join("\n+ " + " ".join(map(str, point)) + f" ={body}" for point, body in sorted(found))
        self.effect(actor, line, f"box {len(found)}{text}")

    def do_split(self, actor, at, _):
        _, line, number = at
        if self.file.live >= self.file.most:
            return self.give_up(actor, at, "full")
        fresh = self.extract(number)
        self.add(Job("post", 1, tuple(low for low, _ in self.file.pages[fresh][1])))
        self.at[actor] = ("put", line, number, fresh)

    def extract(self, number):
        file = self.file
        self.come_to_number()
        reused = bool(file.free)
        fresh = file.free or file.high + 1
        stays, made, (way, cuts) = split(file.pages[number], fresh)
        file.make(made)
        file.pages[number] = stays
        self.counts["split"] += 1
        self.counts["reused"] += reused
        self.commit(13 + 1 + way + 1 + 10 * cuts, (number,), (fresh,))
        return fresh

    def do_put(self, actor, at, _):
        _, line, source, fresh = at
        self.put(actor, line, fresh if has(self.file.pages[fresh][1], line.point) else source)

    # -- what is printed

    def said(self):
        text = "".join(f"{number} {reply}\n" for number, reply in self.replies)
        done = {number for number, _ in self.replies}
        left = "unanswered" if self.stopped else "unfinished"
        text += "".join(f"{number} {left}\n" for number in self.all if number not in done)
        settled = self.settled()
        words = [str(number) for number in self.order]
        if settled < len(words):
            words.insert(settled, "|")
        return text + " ".join(["order"] + words) + "\n" + ("disk fault\n" if self.has_failed() else "")

    def has_failed(self):
        return self.stopped or any(reply == "read fault" for _, reply in self.replies)
