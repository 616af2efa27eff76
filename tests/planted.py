"""What an export did not put into a tree: kinds of files at its paths, which may lead to a folder outside of the tree, and that folder, which
shows whether something in it was read, written or removed."""
import os
import shutil
import stat

# The moments at which all that is outside was read and modified last, in nanoseconds. A later read shows, since the first is the earlier.
READ, MODIFIED = 1_000_000_000_000_000_000, 1_100_000_000_000_000_000


def remove(path):
    """Removes what is at a path, if something is."""
    if os.path.isdir(path) and not os.path.islink(path):
        shutil.rmtree(path)
    elif os.path.lexists(path):
        os.unlink(path)


def written(path, body):
    with open(path, "wb") as it:
        it.write(body)


def folder_with(path, body):
    os.mkdir(path)
    written(f"{path}/own", body)


# How each kind of file is put at a path. `outside` is the folder that links lead to.
KINDS = {
    "link": lambda path, outside: os.symlink(f"{outside}/file", path),
    "link to nothing": lambda path, outside: os.symlink(f"{outside}/none", path),
    "link to a folder": lambda path, outside: os.symlink(f"{outside}/folder", path),
    "link to a fifo": lambda path, outside: os.symlink(f"{outside}/fifo", path),
    "fifo": lambda path, outside: os.mkfifo(path),
    "socket": lambda path, outside: os.mknod(path, stat.S_IFSOCK | 0o600),
    "device": lambda path, outside: os.mknod(path, stat.S_IFCHR | 0o600, os.makedev(1, 5)),
    "folder": lambda path, outside: folder_with(path, b"own"),
    "junk": lambda path, outside: written(path, b"junk\n" * 20),
    "nothing": lambda path, outside: None,
}


def plant(kind, path, outside):
    """Has a kind of file be at a path, in place of what is there. Answers whether it is: not everybody may make a device."""
    remove(path)
    try:
        KINDS[kind](path, outside)
    except PermissionError:
        return False
    return True


def number_of(path):
    """What distinguishes a file from another one in its place."""
    seen = os.lstat(path)
    return seen.st_dev, seen.st_ino, stat.S_IFMT(seen.st_mode)


class Outside:
    """A folder outside of a tree."""

    def __init__(self, folder):
        self.folder = folder
        os.makedirs(f"{folder}/folder/below")
        for path in ("file", "folder/file", "folder/below/own"):
            written(f"{folder}/{path}", b"outside\n")
        for path in ("fifo", "folder/fifo"):
            os.mkfifo(f"{folder}/{path}")
        self.keep()

    def keep(self):
        """From now on all is to stay as it is."""
        self.paths = [self.folder]
        for folder, folders, files in os.walk(self.folder):
            self.paths += sorted(f"{folder}/{name}" for name in folders + files)
        self.bodies = self.read()
        self.set_moments()

    def set_moments(self):
        for path in self.paths:
            os.utime(path, ns=(READ, MODIFIED), follow_symlinks=False)
        self.seen = {path: self.look(path) for path in self.paths}

    def look(self, path):
        seen = os.lstat(path)
        return seen.st_mode, seen.st_ino, seen.st_size, seen.st_mtime_ns, seen.st_atime_ns

    def read(self):
        """What is in each file, and which names each folder has."""
        found = {}
        for path in self.paths:
            if os.path.islink(path):
                found[path] = os.readlink(path)
            elif os.path.isdir(path):
                found[path] = sorted(os.listdir(path))
            elif os.path.isfile(path):
                with open(path, "rb") as it:
                    found[path] = it.read()
        return found

    def faults(self):
        """What differs from what it was, as a list of texts. Nothing of it is reported a second time."""
        told = []
        for path, before in self.seen.items():
            if not os.path.lexists(path):
                told.append(f"{path} was removed")
                continue
            now = self.look(path)
            if now[:4] != before[:4]:
                told.append(f"{path} was written")
            elif now[4] != before[4]:
                told.append(f"{path} was read")
        if told:
            return told
        told = [f"{path} has other contents" for path, body in self.read().items() if self.bodies[path] != body]
        self.set_moments()
        return told
