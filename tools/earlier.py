"""What an earlier run left: its verdicts, and whose object it took at a URI."""

import os
import stat

import bundles
import signed
from helpers import LINE, Rows
from taking import uri_of


def known_rows(folder, notes):
    """The lines of an earlier run's verdicts, or None where there are none."""
    if folder is None:
        return None
    try:
        rows = Rows(os.path.join(folder, "verdicts"), LINE)
    except OSError as why:
        notes.append(f"no verdicts of an earlier run: {why}")
        return None
    notes.append(f"{rows.count:,} verdicts of an earlier run")
    return rows


class Known:
    """The objects of an earlier run: those of the folder that it wrote as OUT, or of the bundle that was kept of it."""

    def __init__(self, folder, reader):
        self.folder, self.reader, self.bundle = folder, reader, None

    def issuer(self, path):
        """The identifier of the key by which the object of that path below OUT was certified, or None."""
        octets = self.folder and (self.in_folder(path) or self.in_bundle(path))
        try:
            found = self.reader(octets) if octets else None
        except signed.Malformed:
            return None
        return found and (found.cert.authority if isinstance(found, signed.Object) else found.authority)

    def in_folder(self, path):
        try:
            with open(os.path.join(self.folder, path), "rb", opener=opened) as file:
                return file.read() if stat.S_ISREG(os.fstat(file.fileno()).st_mode) else None
        except OSError:
            return None

    def in_bundle(self, path):
        if self.bundle is None:
            try:
                self.bundle = bundles.Bundle(self.folder)
            except (OSError, ValueError, bundles.Malformed):
                self.bundle = False
        uri = uri_of(path)
        return self.bundle.object(uri).rest() if self.bundle and uri in self.bundle.places else None


def opened(path, flags):
    """Opens a file without waiting for anybody."""
    return os.open(path, flags | os.O_NONBLOCK | os.O_CLOEXEC)
