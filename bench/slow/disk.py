"""A disk of files by path, whose calls are counted and may be made to fail."""
from history import FILE, overwritten
from tokens_and_trees import Fault

PIECE = 65_536


class Failed(Exception):
    pass


class Disk:
    """`fails` has the numbers of the calls that fail, from 0, each with how many bytes of a write go in before."""

    def __init__(self, files, fails=None):
        self.files, self.fails, self.calls, self.bound = dict(files), fails or {}, 0, []

    def call(self):
        self.calls += 1
        if self.calls - 1 in self.fails:
            raise Failed(self.fails[self.calls - 1])

    def start(self, paths):
        """Binds the files of a program and reads each whole; raises the refusal where one is too long or a call fails."""
        for number, path in enumerate(paths):
            try:
                self.call()
                size = len(self.files.setdefault(path, b""))
                self.bound.append(path)
                if size > FILE:
                    raise Fault(10, f"limit: file {number}")
                for _ in range(0, size, PIECE):
                    self.call()
            except Failed:
                raise Fault(9, "disk fault") from None

    def held(self):
        """The sixteen files of a program; those past the bound ones are empty."""
        return [self.files[path] for path in self.bound] + [b""] * (16 - len(self.bound))

    def does(self, request):
        kind, file, place, what = request
        if file >= len(self.bound):
            return "fault", 0
        path = self.bound[file]
        try:
            self.call()
        except Failed as f:
            if kind == "read":
                return "fault", 0
            taken = min(f.args[0], len(what))
            self.files[path] = overwritten(self.files[path], place, what[:taken])
            return "fault", taken
        if kind == "read":
            return "bytes", self.files[path][place:place + what]
        self.files[path] = overwritten(self.files[path], place, what)
        return "count", len(what)
