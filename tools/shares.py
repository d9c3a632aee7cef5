"""Whose files are left out where a cache has more than one bundle takes.

Room is shared by authorities, from the trust anchors down: an authority's is first for what it publishes itself, then for what stands
below each authority that it certifies, where whoever takes least is served first, up to an equal share of what is left. So whoever
publishes much takes no other's place, on whatever host their files are; what is over is left out with the point that it belongs
to, since a point with a part of its files is none. What no manifest lists goes first. An authority whose own point has more than
`--max-store-size` is left out, whatever room there is.
"""

import collections

import taking
from taking import BESIDES, size_of

NO_STORE = "more than --max-store-size by one authority"
NO_ROOM = "more than rpki_check takes: it is beyond its authority's share"
NO_LIST = "more than rpki_check takes: no manifest lists it"


class Shares:
    """What is left out of a listing, by the tree of authorities."""

    def __init__(self, tree, listing, most_store):
        self.tree, self.listing, self.most_store = tree, listing, most_store
        self.below = collections.defaultdict(list)
        self.own, self.total, self.dropped = {}, {}, {}
        for point in sorted(tree.points.values(), key=lambda point: point.level):
            if point.copy and point not in tree.lost and (point.parent is None or point.parent in self.own):
                self.below[point.parent].append(point)
                self.own[point] = self.weight(point)
        for point in reversed(self.own):
            self.total[point] = self.own[point] + sum(self.total[one] for one in self.below.get(point, ()))

    def files(self, point):
        """The files of a point that are listed, each a folder and a name."""
        held = self.listing.folders.get(point.folder, {})
        yield from ((point.folder, name) for name in point.names() if name in held)
        out, _, name = point.path.rpartition("/")
        if name in held:
            yield out, name

    def octets(self, point):
        return sum(size_of(self.listing.folders[out][name]) for out, name in self.files(point))

    def weight(self, point):
        """Which part of the room a point takes: of octets or of entries, whichever is more."""
        names = [name for _, name in self.files(point)]
        octets = self.octets(point) + sum(len(name) + len(point.folder) + BESIDES for name in names)
        entries = len(names) + len(point.folder.split("/"))
        return max(octets / taking.MOST_OCTETS, entries / taking.MOST_ENTRIES)

    def cut(self):
        """Takes back what is over, and tells whose it was."""
        for point in self.own:
            if self.octets(point) > self.most_store:
                self.drop(point, NO_STORE, point)
        if self.listing.is_over():
            self.serve(None, self.below.get(None, []), 1.0 - self.fixed())
        kept = self.kept()
        self.leave_dropped(kept)
        self.leave_unlisted(kept)

    def fixed(self):
        """Which part of the room is for what isn't any authority's: locators, and the certificates of trust anchors."""
        anchors = self.tree.anchors
        octets = sum(size_of(self.listing.folders[out][name]) for out, _, name in (path.rpartition("/") for path in anchors))
        entries = self.listing.entries + sum(len(path.split("/")) for path in anchors)
        return min(1.0, max((octets + BESIDES * len(anchors)) / taking.MOST_OCTETS, entries / taking.MOST_ENTRIES))

    def serve(self, point, points, room):
        """Shares room between what stands below a point, after what it publishes itself: how much was taken."""
        own = self.own[point] if point else 0
        if own > room:
            self.drop(point, NO_ROOM, point)
            return 0
        left = room - own
        points = sorted((one for one in points if one not in self.dropped), key=self.total.get)
        for at, one in enumerate(points):
            share = left / (len(points) - at)
            is_whole = self.total[one] <= share
            left -= self.total[one] if is_whole else self.serve(one, self.below.get(one, []), share)
        return room - left

    def drop(self, point, why, top):
        """Leaves out a point and all below it."""
        points = [point]
        while points:
            one = points.pop()
            if one not in self.dropped:
                self.dropped[one] = why, top
                points += self.below.get(one, [])

    def kept(self):
        """The names of the files that stay, by folder."""
        kept = collections.defaultdict(set)
        for point in self.own:
            if point not in self.dropped:
                for out, name in self.files(point):
                    kept[out].add(name)
        for path in self.tree.anchors:
            out, _, name = path.rpartition("/")
            kept[out].add(name)
        return kept

    def leave_dropped(self, kept):
        for point, (why, top) in self.dropped.items():
            for out, name in list(self.files(point)):
                if name not in kept[out]:
                    self.listing.leave(why, f"{out}/{name}", top.uri)

    def leave_unlisted(self, kept):
        """Leaves out what no manifest lists, where there is too much of it: of all, or in one folder."""
        for is_all in (False, True):
            for out, held in self.listing.folders.items():
                others = [name for name in held if name not in kept.get(out, ())]
                if is_all and self.listing.is_over() or sum(size_of(held[name]) for name in others) > self.most_store:
                    for name in others:
                        self.listing.leave(NO_LIST, f"{out}/{name}")
