"""What a disk may have behind a stop of the machine, by what a program did to the files of a folder: a file has what was synced and a front of what
was done to it since; of the names that were given, changed or removed since the folder was synced any may have stayed. `record_changes.c` tells
what was done."""
import collections
import os

Change = collections.namedtuple("Change", "kind inode name to at data", defaults=(None, None, None, None, b""))


def change(text):
    """The change that a line of a record tells."""
    kind, *words = text.split(" ")
    if kind == "write":
        return Change(kind, int(words[0]), at=int(words[1]), data=bytes.fromhex(words[2]))
    if kind == "rename":
        return Change(kind, name=words[0], to=words[1])
    if kind in ("names", "remove"):
        return Change(kind, name=" ".join(words))
    number = int(words[0])
    return Change(kind, number, at=int(words[1])) if kind == "cut" else Change(kind, number, name=" ".join(words[1:]))


def recorded(kept, does, loaded):
    """What a rebase or a start does to a journal's files, with the inodes that they had before."""
    record, names = f"{kept.folder}.record", list(kept.files())
    inodes = {os.stat(f"{kept.folder}/{name}").st_ino: name for name in names}
    does(kept, {"LD_PRELOAD": loaded, "RECORD_FOLDER": kept.folder, "RECORD_FILE": record})
    with open(record, encoding="ascii") as file:
        changes = [change(it) for it in file.read().splitlines()]
    os.remove(record)
    return [Change("open", inode, name) for inode, name in inodes.items()] + changes


class Disk:
    """The files of a folder, each by a number of its own, since a file that is removed gives its inode to another one."""

    def __init__(self, before):
        self.now, self.names, self.named = {}, {}, []
        self.files, self.waits, self.inodes = {}, {}, {}
        for name, data in before.items():
            self.now[name] = self.names[name] = len(self.files)
            self.waits[len(self.files)], self.files[len(self.files)] = [], data

    def do(self, it):
        """A change is made. Whether it is one that a stop may find in another state than before."""
        if it.kind == "open":
            return self.open(it)
        if it.kind == "sync":
            file = self.inodes[it.inode]
            self.files[file], self.waits[file] = done(self.files[file], self.waits[file]), []
        elif it.kind == "names":
            for more in self.named:
                self.names.update(more)
            self.named = []
        elif it.kind == "rename":
            self.now[it.to] = self.now.pop(it.name)
            self.named.append({it.name: None, it.to: self.now[it.to]})
        elif it.kind == "remove":
            del self.now[it.name]
            self.named.append({it.name: None})
        else:
            self.waits[self.inodes[it.inode]].append(it)
        return True

    def open(self, it):
        is_new = it.name not in self.now
        if is_new:
            file = self.now[it.name] = len(self.files)
            self.waits[file], self.files[file] = [], b""
            self.named.append({it.name: file})
        self.inodes[it.inode] = self.now[it.name]
        return is_new

    def left(self, keeps_name, front):
        """What a stop leaves: `keeps_name` says of each change of names whether it stays, `front` how much of so many bytes and cuts."""
        names = dict(self.names)
        for more in self.named:
            if keeps_name():
                names.update(more)
        return {name: done(self.files[it], front_of(self.waits[it], front)) for name, it in names.items() if it is not None}


def done(data, changes):
    """What a file has behind these changes."""
    for it in changes:
        if it.kind == "cut":
            data = data[:it.at].ljust(it.at, b"\0")
        else:
            data = data[:it.at].ljust(it.at, b"\0") + it.data + data[it.at + len(it.data):]
    return data


def front_of(changes, front):
    """The first of these changes, and perhaps a front of the last of them."""
    left, kept = front(sum(max(1, len(it.data)) for it in changes)), []
    for it in changes:
        if left <= 0:
            break
        kept.append(it._replace(data=it.data[:left]))
        left -= max(1, len(it.data))
    return kept


def states_of(before, changes, pick):
    """What a stop behind each change may leave, and where that is: nothing that waits, all of it, and some of it. None comes twice."""
    disk, seen = Disk(before), set()
    ways = [(lambda: False, lambda most: 0), (lambda: True, lambda most: most)] + [(lambda: pick.random() < 0.5, lambda most: pick.randint(0, most))] * 2
    for n, it in enumerate(changes):
        if not disk.do(it):
            continue
        for way in ways:
            files = disk.left(*way)
            key = tuple(sorted(files.items()))
            if key not in seen:
                seen.add(key)
                left = ", ".join(f"{name} of {len(data)} bytes" for name, data in files.items())
                yield f"behind change {n}, {it.kind} {it.name or ''}, that left {left}", files
