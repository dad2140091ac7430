"""What a run over a plain list may say, and what a crash may leave of it."""

import functools

OUTSIDE = {"full", "no memory", "read fault"}


@functools.lru_cache(maxsize=1 << 18)
def sum_of(k, point, body):
    """The sum of a record, as program.txt makes it of its bytes."""
    total = 14695981039346656037
    for byte in b"".join(value.to_bytes(8, "big") for value in point) + bytes([len(body)]) + body.encode():
        total = (total ^ byte) * 1099511628211 % 2 ** 64
    return total ^ (total >> 29)


class Bad(Exception):
    """What differs."""


class Said:
    """An output text, taken apart."""

    def __init__(self, text):
        self.replies, self.left, self.order, self.settled, self.fault = [], [], None, None, None
        for line in text.split("\n")[:-1]:
            front, _, rest = line.partition(" ")
            if front == "+" and self.replies and self.order is None:
                number, said = self.replies[-1]
                self.replies[-1] = (number, f"{said}\n+ {rest}")
                continue
            if self.order is not None or not (front.isdigit() or front == "order"):
                if self.fault is not None:
                    raise Bad(f"a line behind the fault line: {line}")
                self.fault = line
            elif front == "order":
                words = rest.split()
                self.order = [int(word) for word in words if word != "|"]
                self.settled = words.index("|") if "|" in words else len(words)
            elif rest in ("unfinished", "unanswered"):
                self.left.append((int(front), rest))
            else:
                if self.left:
                    raise Bad("a reply behind a line that has none")
                self.replies.append((int(front), rest))


def do(records, line):
    """The reply of a plain list."""
    _, _, verb, point, body = line
    if verb == "insert":
        if point in records:
            return "duplicate"
        records[point] = body
        return "ok"
    if verb == "delete":
        return "absent" if records.pop(point, None) is None else "ok"
    if verb == "search":
        found = [held for held in sorted(records) if all(low <= value <= high for low, value, high in zip(point, held, body))]
        return f"box {len(found)}" + "".join("\n+ " + " ".join(map(str, held)) + f" ={records[held]}" for held in found)
    return f"found ={records[point]}" if point in records else "none"


class Run:
    """A run over these records, and what was said of it."""

    def __init__(self, k, records, lines, status, text, at, clock):
        self.k, self.status, self.text, self.at, self.clock = k, status, text, at, clock
        self.said, self.lines = Said(text), {line[0]: line for line in lines}
        self.sets, self.sums = [dict(records)], [0]
        for point, body in records.items():
            self.sums[0] = (self.sums[0] + sum_of(k, point, body)) % 2 ** 64

    def check(self):
        said = self.said
        if said.order is None:
            if said.replies or said.left or self.at:
                raise Bad("no order")
            said.order, said.settled = [], 0
            return
        self.check_lines()
        self.check_order()
        if self.status not in (0, 6) or (said.fault is None) != (self.status == 0):
            raise Bad(f"status {self.status} and {said.fault}")

    def check_lines(self):
        said = self.said
        numbers = [line for line, _ in said.replies + said.left]
        if sorted(numbers) != sorted(self.lines) or sorted(said.left) != said.left:
            raise Bad("the lines aren't those of the text")
        if len({word for _, word in said.left}) > 1 or len(self.at) != len(said.replies):
            raise Bad("the lines that are left")
        if sorted(self.at) != self.at or (self.at and self.at[-1] > self.clock):
            raise Bad("the clock")
        places = {line: place for place, line in enumerate(said.order)}
        if len(places) != len(said.order) or not set(places) <= set(self.lines) or said.settled > len(said.order):
            raise Bad("the order isn't one")
        for line, reply in said.replies:
            if (reply in OUTSIDE) == (line in places):
                raise Bad(f"line {line} in the order")
            if line in places and places[line] >= said.settled:
                raise Bad(f"line {line} was answered before its place was settled")
            if reply == "full" and self.lines[line][2] != "insert":
                raise Bad("only an insert may be full")
        self.check_sessions(places)

    def check_sessions(self, places):
        """Each session's lines: first those that are answered, in their sequence, then one that waits, then others."""
        replied = {line: place for place, (line, _) in enumerate(self.said.replies)}
        for session in {line[1] for line in self.lines.values()}:
            own = sorted(line[0] for line in self.lines.values() if line[1] == session)
            kinds = [2 if line in replied else 1 if line in places else 0 for line in own]
            if sorted(kinds, reverse=True) != kinds or kinds.count(1) > 1:
                raise Bad(f"session {session} isn't in its sequence")
            for seen in ([replied[line] for line in own if line in replied], [places[line] for line in own if line in places]):
                if sorted(seen) != seen:
                    raise Bad(f"session {session} overtook itself")

    def check_order(self):
        replies, records = dict(self.said.replies), dict(self.sets[0])
        for line in self.said.order:
            reply = do(records, self.lines[line])
            if replies.get(line, reply) != reply:
                raise Bad(f"line {line}: {replies[line]} instead of {reply}")
            total = self.sums[-1]
            _, _, verb, point, body = self.lines[line]
            if reply == "ok" and verb == "insert":
                total += sum_of(self.k, point, body)
            if reply == "ok" and verb == "delete":
                total -= sum_of(self.k, point, self.sets[-1][point])
            self.sums.append(total % 2 ** 64)
            self.sets.append(dict(records))

    def prefix(self, answer, least=0, most=None):
        """The set of a prefix that has so many of the order at least, and the records that opened."""
        most = len(self.sums) - 1 if most is None else most
        for place in range(least, most + 1):
            if answer == f"{self.sums[place]:x}/{len(self.sets[place])}":
                return self.sets[place]
        raise Bad(f"what opens is no prefix of {least} to {most}: {answer}")

    def answered_by(self, clock):
        places = {line: place for place, line in enumerate(self.said.order)}
        return max([places[line] + 1 for (line, _), at in zip(self.said.replies, self.at) if at <= clock and line in places], default=0)

    def check_image(self, clock, answers):
        for answer in answers:
            self.prefix(answer, self.answered_by(clock))

    def check_end(self, answers):
        """Behind a run that nothing stopped each image has what is settled."""
        for answer in answers:
            self.prefix(answer, self.said.settled, self.said.settled)
