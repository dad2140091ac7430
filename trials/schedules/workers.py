"""The rows of the poster and the consolidator, by docs/STEPS.md, for machine.py."""
import collections

from trees import carved, children, directly_covers, leaf_at, leaves, normal, renamed, way_to, way_to_sibling, weight, with_part

POSTER, MERGER = 17, 18
Job = collections.namedtuple("Job", "kind level point")


class Workers:
    """What the two workers do, once their step may be done."""

    # -- the poster

    def do_grow(self, actor, at, _):
        file, job = self.file, at[1]
        self.at[actor] = ("idle",)
        root = file.pages[file.root]
        if not (file.height == job.level < 12 and any(leaf[0] == "sibling" for leaf in leaves(root[2])) and file.live < file.most):
            return
        self.come_to_number()
        self.counts["reused"] += bool(file.free)
        file.root = file.make((file.height, file.whole, ("child", file.root)))
        file.height += 1
        self.counts["grown"] += 1
        self.commit(9, (), (file.root,))
        self.add(job)

    def arrive(self, actor, job, number):
        if actor == POSTER:
            self.at[actor] = ("child", job, number)
        else:
            self.scan(actor, job, number, children(self.file.pages[number])[:1])

    def owed(self, job, parent, child):
        leaf, area = leaf_at(self.file.pages[parent], job.point)
        below, given = leaf_at(self.file.pages[child], job.point)
        if below[0] != "sibling" or below[1] == leaf[1]:
            return None
        return area, given, leaf[1], below[1]

    def do_child(self, actor, at, child):
        _, job, parent = at
        self.at[actor] = ("promote", job, parent) if self.owed(job, parent, child) else ("idle",)

    def do_promote(self, actor, at, _):
        self.at[actor] = ("again",) + at[1:]

    def do_again(self, actor, at, child):
        _, job, parent = at
        self.at[actor] = ("idle",)
        owed = self.owed(job, parent, child)
        if not owed:
            return
        page = self.file.pages[parent]
        way = way_to(page[2], job.point)
        frag = normal(with_part(page[2], way, carved(*owed)))
        if weight(frag) <= self.file.capacity(page[0]):
            self.put_page(parent, frag)
            self.counts["posted"] += 1
            self.commit(5 + 1 + len(way) + 4 + 16 * self.file.k, (parent,))
            return self.add(job)
        if self.file.live >= self.file.most:
            return
        fresh = self.extract(parent)
        self.counts["parents split"] += 1
        self.add(Job("post", job.level + 1, tuple(low for low, _ in self.file.pages[fresh][1])))
        self.add(job)

    # -- the consolidator

    def scan(self, actor, job, parent, child):
        self.at[actor] = ("scan", job, parent, child[0]) if child else ("idle",)

    def try_from(self, actor, job, parent, keep, place):
        """The first pair from this leaf of the page to keep on, or the next child."""
        names = children(self.file.pages[parent])
        for at, leaf in enumerate(leaves(self.file.pages[keep][2])):
            if at >= place and leaf[0] == "sibling" and leaf[1] in names:
                self.at[actor] = ("try", job, parent, keep, leaf[1], at)
                return
        self.scan(actor, job, parent, names[names.index(keep) + 1:][:1] if keep in names else [])

    def plan(self, parent, keep, gone):
        above, kept, going = (self.file.pages[page] for page in (parent, keep, gone))
        if ("sibling", gone) not in leaves(kept[2]):
            return "not contained"
        if not directly_covers(above, going[1]):
            return "many parents"
        if 4 * (weight(kept[2]) - 1 + weight(going[2])) > 3 * self.file.capacity(going[0]):
            return "too heavy"
        return "merge"

    def do_scan(self, actor, at, child):
        self.try_from(actor, at[1], at[2], child, 0)

    def do_try(self, actor, at, gone):
        _, job, parent, keep, _, place = at
        plan = self.plan(parent, keep, gone)
        self.counts["tried: " + plan] += 1
        if plan == "merge":
            self.at[actor] = ("merge promote", job, parent, keep, gone)
        else:
            self.try_from(actor, job, parent, keep, place + 1)

    def do_merge_promote(self, actor, at, _):
        self.at[actor] = ("keep",) + at[1:]

    def do_keep(self, actor, at, keep):
        gone = at[4]
        if ("sibling", gone) in leaves(self.file.pages[keep][2]):
            self.at[actor] = ("decide",) + at[1:]
        else:
            self.counts["dropped at keep"] += 1
            self.at[actor] = ("idle",)

    def do_decide(self, actor, at, _):
        _, job, parent, keep, gone = at
        self.at[actor] = ("idle",)
        plan = self.plan(parent, keep, gone)
        if plan != "merge":
            self.counts["decided: " + plan] += 1
            return
        file = self.file
        above, kept, going = (file.pages[page] for page in (parent, keep, gone))
        self.put_page(keep, normal(with_part(kept[2], way_to_sibling(kept[2], gone), going[2])))
        self.put_page(parent, normal(renamed(above[2], gone, keep)))
        file.pages[gone], file.free = file.free, gone
        file.live -= 1
        self.counts["merged"] += 1
        self.counts[f"merged at level {going[0]}"] += 1
        self.merges.append((parent, keep, gone))
        self.commit(13, (parent, keep, gone))
        self.add(job)
        if 4 * weight(file.pages[parent][2]) <= file.caps[1]:
            self.add(Job("merge", job.level + 1, job.point))
