"""A file in plain Python: its pages, what it says of itself, and the sums by which program.txt tells what opens."""
import operator
import struct

from plain_list import sum_of
from trees import leaves, spelled

MOST = 2 ** 64 - 1


class File:
    """Pages and what the file says of itself."""

    def __init__(self, k, pages, log, dcap, icap):
        self.k, self.most, self.log, self.caps = k, pages, log, (dcap, icap)
        self.whole = ((0, MOST),) * k
        self.pages, self.root, self.height, self.high, self.live, self.free = {1: (0, self.whole, ("records", ()))}, 1, 1, 1, 1, 0

    def copy(self):
        new = File.__new__(File)
        new.__dict__.update(self.__dict__)
        new.pages = dict(self.pages)
        return new

    def capacity(self, level):
        return self.caps[level > 0]

    def chain(self):
        found, at = [], self.free
        while at:
            found.append(at)
            at = self.pages[at]
        return found

    def make(self, page):
        """The number of a page that is made."""
        if self.free:
            number = self.free
            self.free = self.pages[number]
        else:
            number = self.high = self.high + 1
        self.pages[number] = page
        self.live += 1
        return number


class Sums:
    """The words of program.txt for files: of a page its share is worked out once."""

    def __init__(self, k):
        self.k, self.known = k, {}

    def shares(self, number, page):
        """A page's share of the sum of all records, how many it has, and its share of the sum of all pages."""
        known = self.known.get((number, id(page)))
        if known is None:
            records = [r for leaf in leaves(page[2]) if leaf[0] == "records" for r in leaf[1]] if isinstance(page, tuple) and page[0] == 0 else []
            data = spelled(page)
            words = struct.unpack(f">{(len(data) + 7) // 8}Q", data.ljust((len(data) + 7) // 8 * 8, b"\0"))
            first = 1024 * (number - 1) + 1
            share = sum(map(operator.mul, words, range(first, first + 2 * len(words), 2)))
            # the page is kept, so that no other one gets its id
            known = self.known[number, id(page)] = page, (sum(sum_of(self.k, point, body) for point, body in records), len(records), share)
        return known[1]

    def word(self, file):
        """The sum of the records, their count, the height, the highest page, the pages in use, and the sum of the pages."""
        shares = [self.shares(number, file.pages[number]) for number in range(1, file.high + 1)]
        records, count, pages = (sum(of) for of in zip(*shares))
        return f"{records % 2 ** 64:x}/{count}/{file.height}/{file.high}/{file.live}/{pages % 2 ** 64:x}"
