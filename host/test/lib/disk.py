"""A folder as programs see it, and as a power cut may leave it: what was not synced is kept, lost or torn, each name and each file
on its own. A folder is a set of files, each with the set of its names and its bytes."""
import itertools
import os


class File:
    def __init__(self, data=b""):
        self.data = self.safe = data

    def write(self, at, data):
        self.data = self.data[:at] + data + self.data[at + len(data) :]

    def left(self):
        """What a power cut may leave: as synced, as written, new bytes up to somewhere, or zeros in place of all or the first."""
        if self.data == self.safe:
            return {self.data}
        same = len(os.path.commonprefix([self.safe, self.data]))
        new = len(self.data) - same
        torn = [self.data[: same + n] + self.safe[same + n :] for n in (1, new // 2, new - 1) if 0 < n < new]
        holes = [self.data[:same] + bytes(n) + self.data[same + n :] for n in (new, new // 2)]
        return {self.safe, self.data, *torn, *holes}


def changed(names, gone, name, file):
    """Names after one change: a name goes, or a file gets a name, or both at once."""
    kept = {known: its for known, its in names.items() if known not in (gone, name)}
    return kept if file is None else kept | {name: file}


def folder(names, files, contents):
    """A folder in which the files, by these names, have these contents."""
    return frozenset((frozenset(name for name, its in names.items() if its is file), data) for file, data in zip(files, contents))


class Disk:
    """Its calls are the lines that power.c writes."""

    def __init__(self, files, shown=b""):
        self.names = {name: file for names, data in files for file in [File(data)] for name in names}
        self.files = list(set(self.names.values()))
        self.safe_names = self.names
        self.unsafe = []  # changes of names since the folder was synced
        self.shown = shown

    def do(self, call):
        """Does a call; answers whether it is one that can change anything."""
        name, *words = call.split()
        does = getattr(self, "do_" + name, None)
        if does:
            does(*words)
        return does is not None

    def change(self, gone, name, file):
        self.unsafe.append((gone, name, file))
        self.names = changed(self.names, gone, name, file)

    def do_folder(self, number):
        """A desk's first call."""
        self.folder, self.opened = number, {}

    def do_open(self, number, anew, name):
        if number == "-1":
            return
        if name not in self.names:
            self.files.append(File())
            self.change(None, name, self.files[-1])
        self.opened[number] = self.names[name]
        if anew == "1":
            self.opened[number].data = b""

    def do_write(self, number, at, data):
        if number == "1":
            self.shown += bytes.fromhex(data)
        else:
            self.opened[number].write(int(at), bytes.fromhex(data))

    def do_cut(self, number, size):
        self.opened[number].data = self.opened[number].data[: int(size)]

    def do_sync(self, number):
        if number == self.folder:
            self.safe_names, self.unsafe = self.names, []
        else:
            self.opened[number].safe = self.opened[number].data

    def do_link(self, name, second):
        self.change(None, second, self.names[name])

    def do_rename(self, old, new):
        self.change(old, new, self.names[old])

    def do_unlink(self, name):
        self.change(name, name, None)

    def seen(self):
        files = set(self.names.values())
        return folder(self.names, files, [file.data for file in files])

    def names_left(self):
        """All names that a power cut may leave."""
        for kept in itertools.product([False, True], repeat=len(self.unsafe)):
            names = self.safe_names
            for change in itertools.compress(self.unsafe, kept):
                names = changed(names, *change)
            yield names

    def left(self):
        """Every folder that a power cut may leave."""
        folders = set()
        for names in self.names_left():
            files = set(names.values())
            folders.update(folder(names, files, contents) for contents in itertools.product(*(file.left() for file in files)))
        return folders

    def stray(self):
        """What may stand in freed blocks: the bytes of files without a name, before a power cut or after it."""
        return {data for names in [self.names, *self.names_left()] for file in self.files if file not in names.values() for data in file.left()}
