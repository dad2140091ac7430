"""The pages in memory, in the order of use, by `crates/hb_pool/specs/Pools.antt`; and where the steps begin among the calls of a run."""
import collections

FRAMES = 128
PAGE = 4096


class Frames:
    """The frames with a page, the least recently used first: of each whether it is to be written to its place still, and its pins."""

    def __init__(self, most=None):
        self.most, self.order = most or FRAMES, collections.OrderedDict()

    def has(self, page):
        return page in self.order

    def places(self):
        """How many frames are empty, or clean and not pinned."""
        return self.most - len([1 for dirty, pins in self.order.values() if dirty or pins])

    def bring(self, page, dirty):
        """A page that is in no frame comes, and is last. It gives the one that goes for it, or None."""
        gone = None
        if len(self.order) >= self.most:
            gone = next(number for number, (changed, pins) in self.order.items() if not changed and not pins)
            del self.order[gone]
        self.order[page] = [dirty, 0]
        return gone

    def change(self, page):
        self.order[page][0] = True
        self.order.move_to_end(page)

    def pin(self, page):
        self.order[page][1] += 1
        self.order.move_to_end(page)

    def unpin(self, page):
        assert self.order[page][1] > 0, page
        self.order[page][1] -= 1

    def oldest_dirty(self):
        return next((number for number, (dirty, _) in self.order.items() if dirty), None)

    def clean(self, page):
        self.order[page][0] = False


def behind_opening(calls):
    """The number of the first call of the steps, and the turn's parity: the opening writes a superblock's gate twice, before any step
    does, and behind the second time stands a sync."""
    gates = [number for number, (kind, at, _) in enumerate(calls) if kind == "w" and at in (0, PAGE)]
    return gates[1] + 2, calls[gates[1]][1] // PAGE
