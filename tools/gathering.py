"""How all files of a cache come to be taken: listed, chosen where copies differ or there is too much, and handed to helpers."""

import caches
from choosing import Tree
from helpers import KEY
from shares import Shares
from taking import CLASH, anchor_files, pieces_of


class Gathering:
    """Takes all files, and finds the rows of keys and what is contested."""

    def __init__(self, given, walk, layout, tals, helpers, taking, known):
        self.given, self.walk, self.layout, self.tals = given, walk, layout, tals
        self.helpers, self.taking, self.listing, self.known = helpers, taking, taking.listing, known
        self.keys, self.contested = set(), []

    def all(self):
        """Lists and takes: the rows of the keys that were found."""
        self.list_all()
        self.take(self.taking.parts(self.chosen_before()))
        if self.taking.differing:
            wanted = self.tree(set(self.taking.differing)).decide(self.known)
            self.take(self.taking.again(wanted))
        return self.keys

    def list_all(self):
        """Lists what the cache has, place by place in the layout's order."""
        for place in caches.places(self.walk.top, self.layout):
            for host in self.walk.hosts(place):
                number = self.listing.add_root(caches.Root(place, host))
                for out, files in self.walk.below(place, host):
                    self.listing.add(number, out, files)
                if self.walk.is_cut:
                    self.listing.add_cut(number, f"{place.scheme}/{host.lower()}")
        if self.layout == "rpki-client":
            for root, out, files in anchor_files(self.walk, self.tals):
                self.listing.add(self.listing.add_root(root), out, files)

    def is_heavy(self):
        """Whether there is more than one bundle takes, or maybe more of one authority than it may have."""
        return self.listing.is_over() or self.listing.heaviest() > self.given.max_store_size

    def chosen_before(self):
        """Where files and folders have one path, or there is too much, what is left out is chosen before anything is taken: then
        the digests of the copies to take, else None."""
        if not (self.listing.clashes or self.listing.cut or self.is_heavy()):
            return None
        tree = self.tree({*self.listing.several(), *self.listing.clashes})
        wanted = tree.decide(self.known)
        tops = set()
        for path, is_folder in tree.clashing(self.known):
            if is_folder:
                self.listing.leave(CLASH, path)
            else:
                tops.add(path)
        self.listing.leave_below(CLASH, tops)
        if self.is_heavy():
            Shares(tree, self.listing, self.given.max_store_size).cut()
        return wanted

    def tree(self, watched):
        """All authorities, with claims on the paths that are watched."""
        tree = Tree(self.listing, self.walk, self.helpers, self.given.moment, self.given.depth, watched)
        tree.grow([(one.name, one.key, one.uris) for one in self.tals])
        self.contested = tree.contested
        return tree

    def take(self, parts):
        for pieces, (taken, found) in self.helpers.spread("take", pieces_of(parts)):
            self.taking.note(pieces, taken)
            self.keys.update(found[at : at + KEY.size] for at in range(0, len(found), KEY.size))
