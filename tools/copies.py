"""How a helper reads the copies of files, for whoever chooses between them.

Each request has jobs, and each answer something for each job in turn. A job names a file and the folders of the cache that have
copies of it, as the names that lead to each. What can't be read has no say here; whoever takes files tells of it.
"""

import collections
import hashlib
import os

import caches
import points
import signed

# What was read of a file: its octets, when they were written, and the names that lead to its folder.
Read = collections.namedtuple("Read", "octets when names")

# A copy of a manifest: its digest, in which of the job's folders it stands, the identifier of the key that signed its
# certificate, and what it says where that key was given and the signatures are good.
Signed = collections.namedtuple("Signed", "digest places identifier manifest")


class Folders:
    """Folders of the cache, each opened once it is asked for. One that can't be opened has nothing that could be read."""

    def __init__(self, top, names):
        self.top, self.names, self.open = top, names, {}

    def __enter__(self):
        return self

    def __exit__(self, *_):
        for folder in filter(None, self.open.values()):
            os.close(folder)

    def read(self, number, name, most):
        """A file's copy in one of the folders."""
        if number not in self.open:
            try:
                self.open[number] = caches.open_below(self.top, self.names[number])
            except OSError:
                self.open[number] = None
        if self.open[number] is None:
            raise caches.LeftOut(caches.CHANGED)
        return Read(*caches.read_file(self.open[number], name, most), self.names[number])


class Copies:
    """Reads copies below an open folder, with so many octets at most, by a reader of what is signed."""

    def __init__(self, top, most, reader):
        self.top, self.most, self.reader = top, most, reader

    def each(self, name, folders):
        """The copies that can be read, each with the number of its folder."""
        for number, names in enumerate(folders):
            try:
                with Folders(self.top, [names]) as one:
                    yield number, one.read(0, name, self.most).octets
            except caches.LeftOut:
                continue

    def anchors(self, jobs):
        """Of each job, which has the octets of a locator's key: copies of a trust anchor's certificate of that key, each with the
        number of its folder and its digest."""
        return [list(self.of_key(*job)) for job in jobs]

    def of_key(self, name, folders, key):
        for number, octets in self.each(name, folders):
            try:
                found = points.authority(octets)
                if signed.encoded_key(found.bits) == key and points.is_own(octets):
                    yield number, hashlib.sha256(octets).digest(), found
            except signed.Malformed:
                continue

    def certs(self, jobs):
        """Of each job, which has a digest: the authority whose certificate has it, or None."""
        return [self.of_digest(*job) for job in jobs]

    def of_digest(self, name, folders, digest):
        for _, octets in self.each(name, folders):
            if hashlib.sha256(octets).digest() == digest:
                try:
                    return points.authority(octets)
                except signed.Malformed:
                    return None
        return None

    def manifests(self, jobs):
        """Of each job, which has keys' bits by their identifiers: its copies with other octets than those before."""
        return [self.signed_copies(*job) for job in jobs]

    def signed_copies(self, name, folders, keys):
        found = {}
        for number, octets in self.each(name, folders):
            digest = hashlib.sha256(octets).digest()
            if digest not in found:
                found[digest] = Signed(digest, [], *self.signer(octets, keys))
            found[digest].places.append(number)
        return [copy for copy in found.values() if copy.identifier]

    def signer(self, octets, keys):
        """The identifier of the key that signed a manifest's certificate, and what the manifest says where that is good."""
        try:
            found = self.reader(octets)
            if not isinstance(found, signed.Object):
                return None, None
            identifier = found.cert.authority
        except signed.Malformed:
            return None, None
        try:
            bits = keys.get(identifier)
            is_good = bits is not None and points.is_manifest_by(found, bits)
            return identifier, points.listed(found.content) if is_good else None
        except signed.Malformed:
            return identifier, None

    def digests(self, jobs):
        """Of each job: the digest of each copy that can be read, by the number of its folder."""
        return [{number: hashlib.sha256(octets).digest() for number, octets in self.each(*job)} for job in jobs]
