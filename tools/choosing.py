"""Which copy of a file counts where a cache has several with other octets.

Nobody's copies count by their names. From the locators down, `Tree` reads who publishes where: a trust anchor's certificate is
the one of its locator's key; below it counts, of each authority, the manifest whose certificate is signed by the key of a
certificate that names its URI; and of the files that this lists the copies that have the listed digests. So a copy that nobody
has signed, or that stands where it isn't listed, is nobody's, and takes no other's place.

Of several manifests of one authority that one counts which stands in the store that its certificate names: where its objects
come by rsync, or the server of its notification file (RFC 8182 3.2). Folders' names may not tell the server, and a server may
have several. Of these it is one that is valid at the moment, then one whose files are all there, then the one of the greatest
number.

Two authorities may claim one URI with copies of their own. The one stands that has the object of that URI in the bundle of the
run before. Else it is the one whose store has the URI's host, or more of the last labels of that host's name; else the one
with fewer certificates above it; else the one whose certificate is older. Each request to helpers reads each copy once, so all is
linear in the files of the cache.
"""

import collections
import hashlib

import caches
import points
from taking import PIECE_FILES, around, path_of, uri_of

# Files of so many octets are handed to a helper apart from others.
LARGE = 20_000
# A host that is the same has more labels in common than others can have.
ALL_LABELS = 1000
KNOWN, HOST = "known", "host"

# One authority's claim on a path: with which octets, and where copies of these stand, if that is known yet.
Claim = collections.namedtuple("Claim", "point digest places")


class Point:
    """An authority that a locator leads to, and where it publishes."""

    def __init__(self, cert, uri, path, parent):
        self.identifier, self.bits, self.first, self.uri = cert.identifier, cert.bits, cert.first, uri
        self.path, self.folder = path, path.rpartition("/")[0]
        self.parent, self.level = parent, parent.level + 1 if parent else 1
        # of the certificates that were met: hosts as they spell them; whether one names no server; of the servers that they
        # name the hosts, by the digests of the URIs
        self.hosts, self.is_by_rsync, self.servers, self.server_hosts = set(), False, {}, set()
        self.copy, self.listed_of = None, set()

    def meet(self, cert):
        """Notes where a certificate says that its objects are: whether that is new."""
        before = len(self.hosts), self.is_by_rsync, len(self.servers)
        self.hosts.add(cert.manifest.split("/")[2])
        if cert.notification is None:
            self.is_by_rsync = True
        else:
            host = cert.notification.split("/")[2].lower()
            self.servers[hashlib.sha256(cert.notification.encode()).hexdigest()] = host
            self.server_hosts.add(host)
        return before != (len(self.hosts), self.is_by_rsync, len(self.servers))

    def store_rank(self, place):
        """0 where the place is the store that a certificate names, 1 where it may be that or stands for it, else 2."""
        if place.way != caches.RRDP:
            return 0 if place.way == caches.EITHER or self.is_by_rsync else 1
        host, digest = place.server
        if digest:
            return 0 if digest in self.servers else 2
        return 1 if host in self.server_hosts or host is None and self.servers else 2

    def nearness(self, place):
        """How many of the last labels of the URI's host the host of the place's store has in common with it, at the least."""
        if place.way == caches.RSYNC:
            return ALL_LABELS
        host, digest = place.server
        if digest or host:
            named = self.servers.get(digest) if digest else host if host in self.server_hosts else None
            return self.in_common(named) if named else 0
        ways = [ALL_LABELS] if place.way == caches.EITHER and self.is_by_rsync else []
        return min([*ways, *map(self.in_common, self.server_hosts)], default=0)

    def in_common(self, host):
        """How many of the last labels of the URI's host a host has."""
        own = self.path.split("/")[1]
        if own == host:
            return ALL_LABELS
        count = 0
        for one, other in zip(reversed(own.split(".")), reversed(host.split("."))):
            if one != other:
                break
            count += 1
        return count

    def names(self):
        """The names of the files of its manifest."""
        return points.names_of(self.copy.manifest)

    def entries(self):
        """The same, each with its digest."""
        return points.entries_of(self.copy.manifest)


class Tree:
    """All authorities that the locators lead to, by the key's identifier and the manifest's path."""

    def __init__(self, listing, walk, helpers, moment, depth, watched):
        # `watched` are the paths for which copies have to be chosen
        self.listing, self.walk, self.helpers, self.watched = listing, walk, helpers, watched
        self.moment, self.depth = moment, depth
        self.points, self.signers, self.digests = {}, {}, {}
        self.claims = collections.defaultdict(list)
        self.anchors, self.seen, self.contested, self.lost = {}, set(), [], set()

    # From the locators down.

    def grow(self, tals):
        """Reads who publishes where, as far as chains may go."""
        wave = self.find_anchors(tals)
        for _ in range(self.depth):
            changed = self.admit(wave)
            if not changed:
                break
            self.read_manifests(changed)
            self.choose(changed)
            wave = self.read_certs(changed)

    def ask(self, name, jobs):
        """The answers of helpers to jobs, each with its job's key; a job is that key, how much there is to read, and the words."""
        pieces, piece, count = [], [], 0
        for job in jobs:
            piece.append(job)
            count += job[1]
            if count >= PIECE_FILES:
                pieces.append(piece)
                piece, count = [], 0
        pieces += [piece] if piece else []
        for piece, answers in self.helpers.spread(name, pieces, lambda piece: [job[2] for job in piece]):
            yield from zip((job[0] for job in piece), answers)

    def look(self, out, names):
        """Looks for files that weren't listed, where a host has more than is listed."""
        if self.listing.cut:
            self.listing.look(self.walk, out, names)
            self.watched |= {path for path in (f"{out}/{name}" for name in names) if len(self.listing.copies(path)) > 1}

    def job(self, key, path, *words, numbers=None):
        """A job about a path's copies, or about those below the roots of these numbers."""
        numbers = self.listing.copies(path) if numbers is None else numbers
        folders = [self.listing.place(number, path) for number in numbers]
        return key, len(numbers) * (1 + self.listing.size(path) // LARGE), (path.rpartition("/")[2], folders, *words)

    def find_anchors(self, tals):
        """The certificates of trust anchors, each with its path and without a parent."""
        rows = [(path, key) for _, key, uris in tals for path in filter(None, map(path_of, uris)) if key]
        for path, _ in rows:
            self.look(path.rpartition("/")[0], [path.rpartition("/")[2]])
        jobs = (self.job((path, key), path, key) for path, key in rows if self.listing.copies(path))
        for (path, _), found in self.ask("anchors", jobs):
            if found:
                # (valid ones first, then the newest)
                _, digest, cert = max(found, key=lambda row: (row[2].first <= self.moment <= row[2].last, row[2].first, -row[0]))
                self.anchors[path] = digest
                yield cert, path, None

    def admit(self, wave):
        """Puts certificates that are valid to their authorities: those of which something is new."""
        changed = {}
        for cert, path, parent in wave:
            at = path_of(cert.manifest)
            if at is None or not cert.first <= self.moment <= cert.last:
                continue
            key = cert.identifier, at
            if key not in self.points:
                self.points[key] = Point(cert, uri_of(path), at, parent)
                self.look(self.points[key].folder, [at.rpartition("/")[2]])
            if self.points[key].meet(cert):
                changed[key] = self.points[key]
        return list(changed.values())

    def read_manifests(self, changed):
        """Reads the copies of manifests that weren't read yet: of a path all, and of those read before the ones by new keys."""
        first, again = collections.defaultdict(dict), []
        for point in changed:
            if point.path not in self.signers:
                first[point.path][point.identifier] = point.bits
            elif any(copy.manifest is None for copy in self.signers[point.path].get(point.identifier, ())):
                again.append(point)
        self.signers.update((path, {}) for path in first)
        jobs = [self.job((path, None), path, keys) for path, keys in first.items() if self.listing.copies(path)]
        for point in again:
            copies = self.signers[point.path].pop(point.identifier)
            numbers = [number for copy in copies for number in copy.places]
            jobs.append(self.job((point.path, numbers), point.path, {point.identifier: point.bits}, numbers=numbers))
        for (path, numbers), found in self.ask("manifests", jobs):
            numbers = self.listing.copies(path) if numbers is None else numbers
            for copy in found:
                copy = copy._replace(places=[numbers[place] for place in copy.places])
                self.signers[path].setdefault(copy.identifier, []).append(copy)

    def good_copies(self, point):
        return [copy for copy in self.signers.get(point.path, {}).get(point.identifier, ()) if copy.manifest]

    def store(self, point, copy):
        """How near a copy is to the store that a certificate names, the best first."""
        roots = [self.listing.roots[number] for number in copy.places]
        return min((point.store_rank(root.place), root.host is not None and root.host not in point.hosts) for root in roots)

    def is_valid(self, copy):
        return copy.manifest.first <= self.moment <= copy.manifest.last

    def choose(self, changed):
        """Chooses the manifest of each of these authorities."""
        several = []
        for point in changed:
            ranked = [((*self.store(point, copy), not self.is_valid(copy)), copy) for copy in self.good_copies(point)]
            best = min((rank for rank, _ in ranked), default=None)
            copies = [copy for rank, copy in ranked if rank == best]
            point.copy = copies[0] if copies else None
            if len(copies) > 1:
                several.append((point, copies))
        self.read_digests(f"{point.folder}/{name}" for point, copies in several for copy in copies
                          for name in points.names_of(copy.manifest))
        for point, copies in several:
            point.copy = max(copies, key=lambda copy: (self.is_whole(point, copy), copy.manifest.number, copy.manifest.first))

    def read_digests(self, paths):
        """Reads the digests of the copies of paths, each once."""
        wanted = {path: None for path in paths if path not in self.digests}
        jobs = (self.job(path, path) for path in wanted if self.listing.copies(path))
        for path, found in self.ask("digests", jobs):
            numbers = self.listing.copies(path)
            self.digests[path] = {}
            for number, digest in found.items():
                self.digests[path].setdefault(digest, []).append(numbers[number])

    def is_whole(self, point, copy):
        """Whether each file that a manifest lists has a copy with its digest."""
        entries = points.entries_of(copy.manifest)
        return all(digest in self.digests.get(f"{point.folder}/{name}", ()) for name, digest in entries)

    def read_certs(self, changed):
        """The certificates that these authorities' manifests list, each with its path and the authority."""
        jobs = []
        for point in changed:
            if point.copy is None or point.copy.digest in point.listed_of:
                continue
            point.listed_of.add(point.copy.digest)
            self.look(point.folder, point.names())
            for name, digest in point.entries():
                path = f"{point.folder}/{name}"
                if name[-4:].lower() == ".cer" and (path, digest) not in self.seen and self.listing.copies(path):
                    self.seen.add((path, digest))
                    jobs.append(self.job((path, point), path, digest))
        return [(cert, path, point) for (path, point), cert in self.ask("certs", jobs) if cert]

    # Who claims what.

    def decide(self, known):
        """Of each path that is watched, and claimed, the digest of the copy to take; what is contested of them is noted."""
        self.wanted = dict(self.anchors)
        standing = [point for point in self.points.values() if point.copy]
        self.watched |= self.listing.clashes
        for point in standing:
            self.claim(point, point.path, point.copy.digest, point.copy.places)
            for name, digest in point.entries():
                self.claim(point, f"{point.folder}/{name}", digest)
        self.read_digests(path for path, claims in self.claims.items() if any(claim.places is None for claim in claims))
        manifests = {point.path for point in standing} & self.claims.keys()
        for path in sorted(manifests):
            self.judge(path, self.claims[path], known)
        for path in sorted(self.claims.keys() - manifests):
            self.judge(path, [claim for claim in self.claims[path] if claim.point not in self.lost], known)
        return self.wanted

    def claim(self, point, path, digest, places=None):
        if path in self.watched:
            self.claims[path].append(Claim(point, digest, places))

    def judge(self, path, claims, known):
        """Decides whose claim on a path stands, of those that have a copy of their own."""
        claims = [claim._replace(places=claim.places or self.digests.get(path, {}).get(claim.digest)) for claim in claims]
        claims = [claim for claim in claims if claim.places]
        if not claims or path in self.anchors:
            return
        best, why = claims[0], None
        if any(claim.digest != best.digest for claim in claims):
            best, why = self.best(path, claims, known)
            others = {claim.point: claim for claim in claims if claim.digest != best.digest and claim.point is not best.point}
            self.lost |= {claim.point for claim in others.values() if claim.point.path == path}
            if others:
                self.tell(path, best, others.values(), why)
        self.wanted[path] = best.digest

    def best(self, path, claims, known):
        """The claim that stands, and by which rule."""
        issuer = known.issuer(path)
        ours = [claim for claim in claims if claim.point.identifier == issuer]
        best = max(ours or claims, key=self.worth)
        return best, KNOWN if ours else HOST

    def worth(self, claim):
        """How much a claim is worth beside others."""
        point = claim.point
        near = max(point.nearness(self.listing.roots[number].place) for number in claim.places)
        age = -int("".join(filter(str.isdecimal, point.first[:14])) or "0")
        return near, -point.level, age, point.identifier

    def tell(self, path, best, others, why):
        self.contested.append({
            "uri": uri_of(path),
            "stands": self.row(path, best),
            "loses": [self.row(path, claim) for claim in others],
            "why": why,
        })

    def row(self, path, claim):
        return {"authority": claim.point.uri, "place": "/".join(self.listing.place(claim.places[0], path))}

    # Files and folders of one path.

    def clashing(self, known):
        """Of each path that has a file and a folder, whether the file is to go, and what is contested of it."""
        below = collections.defaultdict(list)
        for point in self.points.values():
            if point.copy and point not in self.lost:
                for above in around(point.folder):
                    if above in self.listing.clashes:
                        below[above].append(Claim(point, point.copy.digest, point.copy.places))
        for path in sorted(self.listing.clashes):
            files = [claim for claim in self.claims.get(path, ()) if claim.point not in self.lost]
            yield path, self.is_folder(path, files, below[path], known)

    def is_folder(self, path, files, folders, known):
        """Whether the folder stands of a path that is a file's, too."""
        files = [claim._replace(places=claim.places or self.listing.copies(path)) for claim in files]
        if not files or not folders:
            return not files
        best, why = max(files, key=self.worth), HOST
        other = max(folders, key=self.worth)
        stays = self.worth(other) >= self.worth(best)
        if known.issuer(path) == best.point.identifier:
            stays, why = False, KNOWN
        elif known.issuer(other.point.path) == other.point.identifier:
            stays, why = True, KNOWN
        self.tell(path, *((other, [best]) if stays else (best, [other])), why)
        return stays
