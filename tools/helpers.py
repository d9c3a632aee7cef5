"""The processes that read a cache's files and check signatures, and how work is handed to them.

A helper has one connection to the process that started it, and ends with it. It answers one request after the other:

  take    reads files, writes them into the folder that is being made, and checks what needs no other file; what was
          signed by another key goes to a file of its own, with the digests, and so do the keys of certificates
  anchors, certs, manifests, digests
          read copies for whoever chooses between them (`copies`)
  flush   writes out what is still kept back
  check   checks what waits in its file, by an index of all keys
  finish  writes the verdicts of its good signatures, sorted

So no octets of objects stay in memory, and each helper writes and reads files of its own.
"""

import collections
import ctypes
import hashlib
import mmap
import multiprocessing
import multiprocessing.connection
import os
import signal
import struct

import caches
import faults
import points
import relaxed
import rsa_keys
import signed
from copies import Copies, Folders
from leaving import LeftOuts
from summaries import Tally

# Of a waiting signature: the signing key's identifier, the digests of message and signature, how many octets the
# signature and the URI have that follow.
WAITING = struct.Struct(">20s32s32sHH")
# Of a key: its identifier, the digest of its encoded octets, and where its bits stand: in which helper's file, from where
# on, how many.
KEY = struct.Struct(">20s32sHQH")
IDENTIFIER = signed.IDENTIFIER_OCTETS
# A line of `verdicts`: three digests in hexadecimal digits, two spaces and a line feed.
LINE = 3 * 64 + 3
# So many loaded keys are kept at most.
MOST_LOADED = 64
BUFFER = 1 << 18
# Extensions of files that are told apart in counts.
KINDS = {"cer", "crl", "mft", "roa", "asa", "gbr", "sig", "tak", "spl"}
PR_SET_PDEATHSIG = 1


class Rows:
    """Sorted rows of one width in a file, and those that begin with given octets."""

    def __init__(self, path, width):
        self.width, self.count, self.rows = width, 0, b""
        with open(path, "rb") as file:
            size = os.fstat(file.fileno()).st_size
            if size and size % width == 0:
                self.rows = mmap.mmap(file.fileno(), size, access=mmap.ACCESS_READ)
                self.count = size // width

    def find(self, front):
        """A row that begins so, or None, found by halving."""
        rows, width, size = self.rows, self.width, len(front)
        low, high = 0, self.count
        while low < high:
            middle = (low + high) // 2
            at = middle * width
            if rows[at : at + size] < front:
                low = middle + 1
            else:
                high = middle
        at = low * width
        return rows[at : at + width] if low < self.count and rows[at : at + size] == front else None


def line_of(verdict):
    """A verdict's line, of its 96 octets."""
    digits = verdict.hex()
    return f"{digits[:64]} {digits[64:128]} {digits[128:]}\n".encode()


def kind_of(uri):
    """What a file is by its extension, for counting alone."""
    kind = uri.rpartition("/")[2].rpartition(".")[2].lower()
    return kind if kind in KINDS else "other"


class Counts:
    """What helpers count."""

    def __init__(self, path):
        # `path` is that of a file which has what is left out, a line each
        self.left_out, self.not_good = LeftOuts(path), Tally()
        self.good, self.signatures = collections.Counter(), collections.Counter()
        self.differing = 0

    def merge(self, other):
        self.left_out.merge(other.left_out)
        self.not_good.merge(other.not_good)
        self.good += other.good
        self.signatures += other.signatures
        self.differing += other.differing


# A part of a folder to take: its path below OUT; the folders in the cache that have copies, as the names that lead to each; the
# names of the files; of each file in which of the folders copies of it stand (without: in the first); and of each the digest of
# the copy to take, or None for the first (without: where copies differ none is taken).
Part = collections.namedtuple("Part", "out folders files places wanted")

# What was taken of a part: the octets of its files and when the last of them was written; the names of those that couldn't be
# taken, and of those whose copies differ.
Taken = collections.namedtuple("Taken", "octets newest missing differing")

TOO_MANY_ORIGINS = "more prefixes or providers than --max-origins-per-object"


class Helper(Copies):
    """One process's own files and counts."""

    def __init__(self, number, top, work, folder, limits, known, is_relaxed):
        super().__init__(top, limits.file, relaxed.read if is_relaxed else signed.read)
        self.number, self.work, self.limits, self.known = number, work, limits, known
        self.folder = os.open(folder, caches.FOLDER)
        self.waiting = open(self.path("waiting", number), "xb+", buffering=BUFFER)
        self.keys = open(self.path("keys", number), "xb+", buffering=BUFFER)
        self.verdicts, self.found_keys, self.counts = [], [], Counts(self.path("left", number))
        self.index, self.loaded, self.key_files = None, {}, {}

    def path(self, what, number):
        return os.path.join(self.work, f"{what}.{number}")

    def take(self, parts):
        """Takes parts of folders: of each what was taken, and the rows of keys that were found."""
        taken = [self.take_part(part) for part in parts]
        keys, self.found_keys = self.found_keys, []
        return taken, b"".join(keys)

    def take_part(self, part):
        octets, newest, missing, differing = 0, 0, [], []
        target = self.open_target(part.out)
        try:
            with Folders(self.top, part.folders) as folders:
                for at, name in enumerate(part.files):
                    found, count, faults = self.pick(folders, part, at)
                    if count and part.wanted is None:
                        differing.append(name)
                        continue
                    self.counts.differing += count
                    for why, path in faults:
                        self.counts.left_out.add(why, path)
                    if found is None or not self.keep(target, part, name, found):
                        missing.append(name)
                        continue
                    octets, newest = octets + len(found.octets), max(newest, found.when)
        finally:
            os.close(target)
        return Taken(octets, newest, missing, differing)

    def pick(self, folders, part, at):
        """The copy of a file that is to be taken, or None; how many copies have other octets; and why others can't be read."""
        name, wanted = part.files[at], part.wanted and part.wanted[at]
        found, digest, digests, faults = None, None, [], []
        for number in part.places[at] if part.places else (0,):
            try:
                copy = folders.read(number, name, self.limits.file)
            except caches.LeftOut as why:
                faults.append((str(why), "/".join((*folders.names[number], name))))
                continue
            digests.append(hashlib.sha256(copy.octets).digest() if part.places else None)
            if found is None or digests[-1] == wanted != digest:
                found, digest = copy, digests[-1]
        return found, sum(other != digest for other in digests), faults

    def open_target(self, out):
        """The open folder at that path below OUT, which is made where it isn't there."""
        try:
            return os.open(out, caches.FOLDER, dir_fd=self.folder)
        except FileNotFoundError:
            pass
        front = ""
        for name in out.split("/"):
            front += name
            try:
                os.mkdir(front, dir_fd=self.folder)
            except FileExistsError:
                pass
            front += "/"
        return os.open(out, caches.FOLDER, dir_fd=self.folder)

    def keep(self, target, part, name, copy):
        """Writes a file's copy and reads what is signed of it; not one that has too many rows, which is left out."""
        uri = f"{part.out.replace('/', '://', 1)}/{name}"
        try:
            found, fault = self.reader(copy.octets), None
        except signed.Malformed as why:
            found, fault = None, why
        if isinstance(found, signed.Object):
            most = self.limits.origins
            if points.count_of(found.kind, found.content, most) > most:
                self.counts.left_out.add(TOO_MANY_ORIGINS, "/".join((*copy.names, name)), len(copy.octets))
                return False
        write_in(target, name, copy.octets)
        try:
            if fault:
                raise fault
            self.note(uri, found)
        except signed.Malformed as why:
            self.not_good(uri, why)
        return True

    def not_good(self, uri, why):
        """Notes that an object lacks a verdict."""
        self.counts.not_good.add(f"{kind_of(uri)}: {why}", uri)

    def note(self, uri, found):
        """Notes what is signed of an object."""
        if isinstance(found, signed.Object):
            self.wait_for_key(uri, found.cert)
            self.check_object(uri, found)
            return
        self.wait_for_key(uri, found)
        if isinstance(found, signed.Cert):
            self.keep_key(found)

    def wait_for_key(self, uri, found):
        """Puts a signature by another certificate's key to those that wait."""
        message = hashlib.sha256(found.message).digest()
        digest = hashlib.sha256(found.signature).digest()
        # (a longer signature is none by a key that counts, and neither is its front)
        signature = found.signature[: signed.MOST_SIGNATURE_OCTETS + 1]
        name = uri.encode()
        self.counts.signatures["found"] += 1
        self.waiting.write(WAITING.pack(found.authority, message, digest, len(signature), len(name)))
        self.waiting.write(signature)
        self.waiting.write(name)

    def keep_key(self, cert):
        """Keeps the key of a certificate under its identifier, where it is that key's."""
        bits = cert.bits
        if bits is None:
            return
        if not signed.has_identifier(bits, cert.identifier):
            raise signed.Malformed("the subject key identifier isn't that of the key")
        signed.check_size(bits)
        digest = hashlib.sha256(signed.encoded_key(bits)).digest()
        self.found_keys.append(KEY.pack(cert.identifier, digest, self.number, self.keys.tell(), len(bits)))
        self.keys.write(bits)

    def check_object(self, uri, found):
        """Checks the signature of an object's content, by the key of its own certificate."""
        self.counts.signatures["found"] += 1
        bits = found.cert.bits
        try:
            if bits is None:
                raise signed.Malformed("the key isn't one of RSA")
            if not signed.has_identifier(bits, found.cert.identifier):
                raise signed.Malformed("the subject key identifier isn't that of the key")
            signed.check_size(bits)
        except signed.Malformed:
            self.counts.signatures["no_key"] += 1
            raise
        encoded = signed.encoded_key(bits)
        message = hashlib.sha256(found.attributes).digest()
        verdict = hashlib.sha256(encoded).digest() + message + hashlib.sha256(found.signature).digest()
        self.judge(uri, verdict, lambda: rsa_keys.load_key(encoded), message, found.signature)

    def judge(self, uri, verdict, load, message, signature):
        """Keeps the verdict where the signature is good: by an earlier run, or by the key that `load` loads."""
        signatures = self.counts.signatures
        if self.known is not None and self.known.find(line_of(verdict)):
            signatures["known"] += 1
        else:
            try:
                key = load()
            except signed.Malformed as why:
                signatures["no_key"] += 1
                return self.not_good(uri, why)
            signatures["computed"] += 1
            if not rsa_keys.has_signed(key, message, signature):
                signatures["bad"] += 1
                return self.not_good(uri, "a bad signature")
        self.verdicts.append(verdict)
        self.counts.good[kind_of(uri)] += 1

    def flush(self):
        self.waiting.flush()
        self.keys.flush()

    def check(self, index):
        """Checks the signatures that wait, by the index of keys in that file."""
        self.index = Rows(index, KEY.size)
        self.waiting.seek(0)
        while head := self.waiting.read(WAITING.size):
            authority, message, digest, size, name_size = WAITING.unpack(head)
            signature = self.waiting.read(size)
            uri = self.waiting.read(name_size).decode()
            row = self.index.find(authority)
            if row is None:
                self.counts.signatures["no_key"] += 1
                self.not_good(uri, "no certificate of the signing key")
            else:
                verdict = row[IDENTIFIER : IDENTIFIER + 32] + message + digest
                self.judge(uri, verdict, lambda row=row: self.load(row), message, signature)

    def load(self, row):
        """The key that a row of the index tells of."""
        if row not in self.loaded:
            _, _, number, start, size = KEY.unpack(row)
            if number not in self.key_files:
                self.key_files[number] = os.open(self.path("keys", number), os.O_RDONLY | os.O_CLOEXEC)
            bits = os.pread(self.key_files[number], size, start)
            if len(self.loaded) >= MOST_LOADED:
                self.loaded.clear()
            self.loaded[row] = rsa_keys.load_key(signed.encoded_key(bits))
        return self.loaded[row]

    def finish(self):
        """Writes the lines of good signatures, sorted: the file's path, and the counts."""
        path = self.path("lines", self.number)
        self.verdicts.sort()
        with open(path, "xb", buffering=BUFFER) as file:
            file.writelines(map(line_of, self.verdicts))
        self.counts.left_out.close()
        return path, self.counts


def write_in(folder, name, octets):
    """Writes a file that isn't there yet into an open folder."""
    file = os.open(name, os.O_WRONLY | os.O_CREAT | os.O_EXCL | os.O_NOFOLLOW | os.O_CLOEXEC, 0o666, dir_fd=folder)
    try:
        written = os.write(file, octets)
        while written < len(octets):
            written += os.write(file, memoryview(octets)[written:])
    finally:
        os.close(file)


def die_with_parent(parent):
    """Ends this process when the one that started it does (the connection's end tells it where this isn't there)."""
    try:
        ctypes.CDLL(None).prctl(PR_SET_PDEATHSIG, signal.SIGKILL, 0, 0, 0)
    except (AttributeError, OSError):
        pass
    if os.getppid() != parent:
        os._exit(1)


def serve(link, others, parent, *words):
    """Answers requests until there are no more."""
    signal.signal(signal.SIGINT, signal.SIG_IGN)
    signal.signal(signal.SIGHUP, signal.SIG_IGN)
    signal.signal(signal.SIGTERM, signal.SIG_DFL)
    die_with_parent(parent)
    for other in others:
        other.close()
    try:
        helper = Helper(*words)
        while True:
            name, given = link.recv()
            link.send((True, getattr(helper, name)(*given)))
    except (EOFError, BrokenPipeError, ConnectionResetError):
        pass
    except Exception as why:
        # (the process that started this one tells it, and ends)
        link.send((False, faults.told(why)))


class Helpers:
    """All helpers, each with one request at a time."""

    def __init__(self, count, *words):
        context = multiprocessing.get_context("fork")
        self.links, self.processes = [], []
        for number in range(count):
            link, other = context.Pipe()
            given = (other, [*self.links, link], os.getpid(), number, *words)
            process = context.Process(target=serve, args=given, daemon=True)
            process.start()
            other.close()
            self.links.append(link)
            self.processes.append(process)

    def __enter__(self):
        return self

    def __exit__(self, *_):
        for process in self.processes:
            process.kill()
        for process in self.processes:
            process.join()

    def answer(self, link):
        try:
            is_good, answer = link.recv()
        except (EOFError, ConnectionResetError):
            raise self.ended(link) from None
        if not is_good:
            raise answer
        return answer

    def ended(self, link):
        """That a helper came to its end without an answer."""
        process = self.processes[self.links.index(link)]
        process.join(1)
        if process.exitcode == -signal.SIGKILL:
            return faults.Fault(faults.MEMORY, "a helper process was killed, as it is where memory is short")
        return OSError("a helper process ended")

    def send(self, link, name, given):
        try:
            link.send((name, given))
        except (BrokenPipeError, ConnectionResetError):
            self.answer(link)
            raise self.ended(link) from None

    def each(self, name, *given):
        """The answers of all helpers to one request."""
        for link in self.links:
            self.send(link, name, given)
        return [self.answer(link) for link in self.links]

    def spread(self, name, pieces, words=lambda piece: piece):
        """Hands each piece, by what `words` makes of it, to a helper that has nothing to do: pieces with their answers, as they
        come."""
        idle, busy = list(self.links), {}
        for piece in pieces:
            if not idle:
                yield from self.answered(busy, idle)
            link = idle.pop()
            self.send(link, name, (words(piece),))
            busy[link] = piece
        while busy:
            yield from self.answered(busy, idle)

    def answered(self, busy, idle):
        for link in multiprocessing.connection.wait(list(busy)):
            answer = self.answer(link)
            idle.append(link)
            yield busy.pop(link), answer
