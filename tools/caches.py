"""A validator's cache: where objects lie in it, and how it is read without ever leaving it.

Folders are opened one name after the other from the cache's own folder down, never by a path, and no link is followed; a
file is looked at again when it is open. So whatever lies in the cache, and however it changes meanwhile, nothing outside
of it is read, and nothing that would wait for somebody.
"""

import errno
import os
import re
import stat

# Ways to open a folder and a file: never through a link, and never waiting for the other end of a pipe.
FOLDER = os.O_RDONLY | os.O_DIRECTORY | os.O_NOFOLLOW | os.O_CLOEXEC
FILE = os.O_RDONLY | os.O_NOFOLLOW | os.O_NONBLOCK | os.O_NOCTTY | os.O_CLOEXEC

# What `rpki_check bundle` takes: folders in each other, with `rsync` or `https` as the first.
MOST_FOLDERS = 64
# So many entries of one host's folder are looked at, as many as `rpki_check bundle` takes of all.
MOST_SEEN = 1_000_000
# So many octets a path below OUT has at most, so that whoever opens it may put some in front (PATH_MAX has 4,096).
MOST_PATH = 2048
# How often a file is read that changes while it is read.
TRIES = 3

LAYOUTS = ("plain", "rpki-client", "fort", "routinator")
# What a place's objects came by: by rsync, by RRDP, or by either, which the place doesn't tell.
RSYNC, RRDP, EITHER = "rsync", "rrdp", "either"
# A folder's name that is the SHA-256 digest of the URI of a notification file (`rpkiNotify`).
DIGEST = re.compile(r"[0-9A-Fa-f]{64}\Z")
# A host has a dot or is localhost; so the folders of a cache that aren't hosts are told apart.
HOST = re.compile(r"[A-Za-z0-9-]+(\.[A-Za-z0-9-]+)+(:[0-9]+)?\Z|localhost\Z")
# What a name in a URI is written in, as long as names of files may be.
NAME = re.compile(r"[!-.0-~]{1,255}\Z")

LINK = "a symbolic link"
NOT_A_FILE = "neither a file nor a folder"
NO_URI = "its name isn't written as in a URI"
UNREADABLE = "it can't be read"
TOO_LARGE = "a file over the limit of --max-file-size"
TOO_DEEP = f"below more than {MOST_FOLDERS} folders"
TOO_LONG = f"its path has more than {MOST_PATH:,} octets"
TOO_MANY = f"beyond {MOST_SEEN:,} entries of a host"
CHANGED = "it changed while it was read"
NO_HOST = "not below the name of a host"
# What opening a file says that was one when its folder was listed.
GONE = (errno.ENOENT, errno.ELOOP, errno.ENOTDIR, errno.ENXIO)


class LeftOut(Exception):
    """A file or a folder that isn't taken; the text says why."""


def open_below(top, names):
    """The open folder at these names below an open one; the caller closes it."""
    at = os.dup(top)
    try:
        for name in names:
            inner = os.open(name, FOLDER, dir_fd=at)
            os.close(at)
            at = inner
    except OSError:
        os.close(at)
        raise
    return at


def is_folder(top, *names):
    """Whether a folder lies at these names, without a link on the way."""
    try:
        os.close(open_below(top, names))
    except OSError:
        return False
    return True


def folders_of(top, *names):
    """The names of the folders in a folder, in order."""
    try:
        at = open_below(top, names)
    except OSError:
        return []
    try:
        with os.scandir(at) as entries:
            return sorted(entry.name for entry in entries if entry.is_dir(follow_symlinks=False))
    except OSError:
        return []
    finally:
        os.close(at)


def read_once(file, most):
    """An open file's octets and when they were written, in seconds since 1970; or None where it changed while they were read."""
    before = os.fstat(file)
    if not stat.S_ISREG(before.st_mode):
        raise LeftOut(LINK if stat.S_ISLNK(before.st_mode) else NOT_A_FILE)
    if before.st_size > most:
        raise LeftOut(TOO_LARGE)
    octets = os.pread(file, before.st_size + 1, 0)
    while 0 < len(octets) < before.st_size:
        more = os.pread(file, before.st_size + 1 - len(octets), len(octets))
        if not more:
            break
        octets += more
    after = os.fstat(file)
    same = (before.st_size, before.st_mtime_ns) == (after.st_size, after.st_mtime_ns)
    return (octets, after.st_mtime_ns // 1_000_000_000) if same and len(octets) == before.st_size else None


def read_file(folder, name, most):
    """The octets of a regular file in an open folder, at most so many, the same that were there all the while; and when they
    were written, in seconds since 1970."""
    try:
        file = os.open(name, FILE, dir_fd=folder)
        try:
            for _ in range(TRIES):
                found = read_once(file, most)
                if found is not None:
                    return found
        finally:
            os.close(file)
    except OSError as why:
        raise LeftOut(CHANGED if why.errno in GONE else UNREADABLE) from None
    raise LeftOut(CHANGED)


class Place:
    """A folder of the cache, by the names that lead to it, with hosts below it, and the scheme of their URIs.

    `way` says what its objects came by; `server` which server a folder of RRDP is of, as far as its names tell: the host of the
    notification file's URI, and that URI's SHA-256 digest, each in lower case or None.
    """

    def __init__(self, names, scheme="rsync", way=EITHER, others=(), server=(None, None)):
        # `others`: names in it that aren't hosts', and of which nothing has to be told
        self.names, self.scheme, self.way, self.others, self.server = tuple(names), scheme, way, others, server


class Root:
    """Where copies stand: the folder of a host in a place, or with `fixed` names a folder that has one file of any URI."""

    def __init__(self, place, host=None, fixed=None):
        self.place, self.host, self.fixed = place, host, fixed

    def names(self, out):
        """The names that lead to the folder which has that path below OUT."""
        return self.fixed or (*self.place.names, self.host, *out.split("/")[2:])


def server_of(name, host=None):
    """Which server a folder of RRDP is of, by its name."""
    return host and host.lower(), name.lower() if DIGEST.match(name) else None


def places(top, layout):
    """The places of a layout, in order."""
    if layout == "plain":
        yield Place(["rsync"])
        yield Place(["https"], "https")
    elif layout == "rpki-client":
        own = (".rrdp", "rrdp", ".rsync", "rsync", ".ta", "ta", "valid")
        yield Place(["valid"])
        yield Place([], others=own)
        for start in (".rrdp", "rrdp"):
            for name in folders_of(top, start):
                yield Place([start, name], way=RRDP, server=server_of(name))
        yield Place([".rsync"], way=RSYNC)
        yield Place(["rsync"], way=RSYNC)
    elif layout == "fort":
        for name in folders_of(top, "rrdp"):
            yield Place(["rrdp", name], way=RRDP, server=server_of(name))
        yield Place(["rsync"], way=RSYNC)
        yield Place(["https"], "https")
    else:
        yield from places_of_routinator(top)


def places_of_routinator(top):
    """What `routinator dump` writes."""
    for start in (["store", "rrdp"], ["rrdp"]):
        for host in folders_of(top, *start):
            for name in folders_of(top, *start, host):
                names = [*start, host, name]
                names = [*names, "rsync"] if is_folder(top, *names, "rsync") else names
                yield Place(names, way=RRDP, server=server_of(name, host))
    for names in (["store", "rsync"], ["rsync"]):
        yield Place(names, way=RSYNC)
    yield Place(["ta", "rsync"])
    yield Place(["ta", "https"], "https")


def layout_of(top):
    """The layout that the names of the cache's folders tell."""
    if any(is_folder(top, *names) for names in (["store"], ["ta", "rsync"], ["ta", "https"])):
        return "routinator"
    if any(is_folder(top, name) for name in (".rrdp", ".rsync", ".ta", "valid", "ta")):
        return "rpki-client"
    return "fort" if is_folder(top, "rrdp") else "plain"


class Walk:
    """A walk over a cache. `tell(why, path, octets)` is called for what isn't taken, with its path below the cache."""

    def __init__(self, top, tell, most, skipped=()):
        # `most`: octets of a file; `skipped`: device and number of folders that are passed over, such as the one that is
        # being written
        self.top, self.tell, self.most, self.skipped = top, tell, most, skipped
        # how many entries of a host were seen, and whether there are more, which aren't looked at
        self.seen, self.is_cut = 0, False

    def hosts(self, place):
        """The names of the hosts' folders in a place."""
        found = []
        try:
            at = open_below(self.top, place.names)
        except OSError:
            self.tell_place(place)
            return found
        try:
            self.seen = 0
            files, folders = self.entries(at, place.names)
            for name, size in files:
                self.tell(NO_HOST, "/".join((*place.names, name)), size)
            for name in folders:
                if HOST.match(name):
                    found.append(name)
                elif name not in place.others:
                    self.tell(NO_HOST, "/".join((*place.names, name)))
        finally:
            os.close(at)
        return found

    def files_in(self, names):
        """The files in the folder at these names, if there is one, each a name and its octets."""
        try:
            at = open_below(self.top, names)
        except OSError:
            return []
        try:
            self.seen = 0
            return self.entries(at, names)[0]
        finally:
            os.close(at)

    def find(self, names, files):
        """Of files of these names those that stand in a folder, each a name and its octets; the folder isn't listed."""
        found = []
        try:
            at = open_below(self.top, names)
        except OSError:
            return found
        try:
            for name in filter(NAME.match, files):
                try:
                    status = os.stat(name, dir_fd=at, follow_symlinks=False)
                except OSError:
                    continue
                if stat.S_ISREG(status.st_mode) and status.st_size <= self.most:
                    found.append((name, status.st_size))
        finally:
            os.close(at)
        return found

    def tell_place(self, place):
        """Tells of a place that is there and isn't a folder that can be read."""
        try:
            at = open_below(self.top, place.names[:-1])
        except OSError:
            return
        try:
            mode = os.stat(place.names[-1], dir_fd=at, follow_symlinks=False).st_mode
            why = LINK if stat.S_ISLNK(mode) else UNREADABLE if stat.S_ISDIR(mode) else NOT_A_FILE
            self.tell(NO_HOST if stat.S_ISREG(mode) else why, "/".join(place.names))
        except OSError:
            pass
        finally:
            os.close(at)

    def entries(self, at, names):
        """The files in an open folder, each a name and its octets, and the names of the folders, in order; others are told."""
        files, folders = [], []
        try:
            with os.scandir(at) as found:
                for entry in found:
                    if self.seen == MOST_SEEN:
                        self.tell(TOO_MANY, "/".join(names) + "/..")
                        self.is_cut = True
                        break
                    self.seen += 1
                    self.sort(entry, names, files, folders)
        except OSError:
            self.tell(UNREADABLE, "/".join(names))
        return sorted(files), sorted(folders)

    def sort(self, entry, names, files, folders):
        """Puts an entry's name to those of files or of folders, or tells why not."""
        try:
            if not NAME.match(entry.name):
                why = NO_URI
            elif entry.is_file(follow_symlinks=False):
                size = entry.stat(follow_symlinks=False).st_size
                if size <= self.most:
                    return files.append((entry.name, size))
                return self.tell(TOO_LARGE, "/".join((*names, entry.name)), size)
            elif entry.is_dir(follow_symlinks=False):
                return folders.append(entry.name)
            else:
                why = LINK if entry.is_symlink() else NOT_A_FILE
        except OSError:
            why = UNREADABLE
        self.tell(why, "/".join((*names, entry.name)))

    def below(self, place, host):
        """Each folder of a host: its path below OUT, and its files, each a name and its octets."""
        self.seen, self.is_cut = 0, False
        try:
            at = open_below(self.top, (*place.names, host))
        except OSError:
            return self.tell(UNREADABLE, "/".join((*place.names, host)))
        yield from self.folder(at, (*place.names, host), f"{place.scheme}/{host.lower()}", 2)

    def folder(self, at, names, out, level):
        """The same of an open folder, which is closed at the end; `level` of them stand in each other in OUT."""
        try:
            status = os.fstat(at)
            if (status.st_dev, status.st_ino) in self.skipped:
                return
            files, folders = self.entries(at, names)
            if files:
                yield out, files
            for name in folders:
                inner = (*names, name)
                if level == MOST_FOLDERS or len(out) + 1 + len(name) > MOST_PATH:
                    self.tell(TOO_DEEP if level == MOST_FOLDERS else TOO_LONG, "/".join(inner))
                    continue
                try:
                    below = os.open(name, FOLDER, dir_fd=at)
                except OSError:
                    self.tell(UNREADABLE, "/".join(inner))
                    continue
                yield from self.folder(below, inner, f"{out}/{name}", level + 1)
        finally:
            os.close(at)
