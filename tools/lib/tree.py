"""The plain file system of docs/FORMATS.md, "The rules of the file system": what a call is answered, and what it changes.

It knows the rules and nothing of the program: the expected transcripts under cases/ are computed by it.
"""
import copy
from dataclasses import dataclass, field

from messages import NFS, fattr_words, handle, handle_parts, hear, text, words

OK, PERM, NOENT, IO, NXIO, ACCES, EXIST, NOTDIR, ISDIR = 0, 1, 2, 5, 6, 13, 17, 20, 21
FBIG, NOSPC, NAMETOOLONG, NOTEMPTY, STALE = 27, 28, 63, 66, 70
REG, DIR, LNK = 1, 2, 5
BLOCK, SLOTS, REFERENCES, CHAINS = 4096, 15, 510, 8
GREATEST_FILE = BLOCK * REFERENCES * CHAINS
MOST_SLOTS, MOST_LINKS, MOST_STEPS, MOST_DATA = 7650, 32000, 200, 8192
ROOT = 1
LAST_CHANGE, LAST_GENERATION = 2 ** 64 - 1, 2 ** 32 - 1
TYPE_BITS = {REG: 0o100000, DIR: 0o040000, LNK: 0o120000}


class Refused(Exception):
    """A call that is answered with a status other than OK."""

    def __init__(self, status):
        super().__init__(status)
        self.status = status


@dataclass
class File:
    kind: int
    mode: int
    links: int
    uid: int
    gid: int
    generation: int
    change: int
    size: int = 0
    atime: tuple = (0, 0)
    mtime: tuple = (0, 0)
    ctime: tuple = (0, 0)
    blocks: dict = field(default_factory=dict)
    slots: list = field(default_factory=list)
    parent: int = 0

    @property
    def used(self):
        """Blocks in use: the stored ones, and the chaining blocks that refer to them."""
        stored = range(len(self.slots) // SLOTS) if self.kind == DIR else self.blocks
        return len(stored) + (max(stored) // REFERENCES + 1 if stored else 0)

    def bytes_at(self, at, count):
        out = b""
        while len(out) < count:
            index, start = divmod(at + len(out), BLOCK)
            block = self.blocks.get(index, bytes(BLOCK))
            out += block[start:start + count - len(out)]
        return out

    def write(self, at, data):
        done = 0
        while done < len(data):
            index, start = divmod(at + done, BLOCK)
            piece = data[done:done + BLOCK - start]
            block = self.blocks.get(index, bytes(BLOCK))
            self.blocks[index] = block[:start] + piece + block[start + len(piece):]
            done += len(piece)

    def resize(self, size):
        if size < self.size:
            end = (size + BLOCK - 1) // BLOCK
            self.blocks = {index: block for index, block in self.blocks.items() if index < end}
            if size % BLOCK and size // BLOCK in self.blocks:
                block = self.blocks[size // BLOCK]
                self.blocks[size // BLOCK] = block[:size % BLOCK] + bytes(BLOCK - size % BLOCK)
        self.size = size

    def slot_of(self, name):
        return next((k for k, slot in enumerate(self.slots) if slot and slot[0] == name), None)

    def is_empty(self):
        return not any(self.slots)


class Tree:
    """All files of a cluster by their number, and what free numbers keep."""

    def __init__(self, memories, blocks, inodes):
        self.memories, self.capacity, self.inodes = memories, memories * blocks, inodes
        root = File(DIR, 0o777, 2, 0, 0, 1, 1, parent=ROOT)
        self.files, self.kept, self.made = {ROOT: root}, {}, None

    # ---- looking

    def is_number(self, number):
        return 1 <= number and (number - 1) // 16384 < self.memories and (number - 1) % 16384 < self.inodes

    def needs_no_files(self, call):
        """Whether a call is answered at once: no file system is needed, or a handle is none of this cluster."""
        if call.program != NFS or call.procedure in (0, 3, 7):
            return True
        return any(not self.is_own(call.args[name]) for name, kind in call.fields() if kind == "handle")

    def is_own(self, h):
        parts = handle_parts(h)
        return parts is not None and self.is_number(parts[0])

    def file_of(self, h):
        parts = handle_parts(h)
        file = self.files.get(parts[0]) if parts else None
        if file is None or file.generation != parts[1]:
            raise Refused(STALE)
        return parts[0], file

    def fattr(self, number):
        f = self.files[number]
        return {"type": f.kind, "mode": f.mode + TYPE_BITS[f.kind], "nlink": f.links, "uid": f.uid, "gid": f.gid,
                "size": f.size, "blocksize": BLOCK, "rdev": 0, "blocks": 8 * f.used, "fsid": 1, "fileid": number,
                "atime": f.atime, "mtime": f.mtime, "ctime": f.ctime}

    def found(self, number):
        return handle(number, self.files[number].generation) + fattr_words(self.fattr(number))

    def free_blocks(self):
        return self.capacity - sum(f.used for f in self.files.values())

    def first_free(self, start):
        for k in range(self.memories):
            for inode in range(self.inodes):
                number = 16384 * ((start + k) % self.memories) + inode + 1
                generation, change = self.kept.get(number, (0, 0))
                if number not in self.files and generation < LAST_GENERATION and change < LAST_CHANGE:
                    return number
        return None

    def at_path(self, path):
        """The number of the file that a path names, or None."""
        number = ROOT
        for name in [part for part in path.split(b"/") if part]:
            file = self.files[number]
            slot = file.slot_of(name) if file.kind == DIR else None
            if slot is None:
                return None
            number = file.slots[slot][1]
        return number

    # ---- a call

    def apply(self, call, now, start):
        """The result's bytes of a call at a moment, with the memory node from which a new number is looked for."""
        before = copy.copy(self.files), dict(self.kept)
        self.files = {number: copy.copy(f) for number, f in self.files.items()}
        for f in self.files.values():
            f.blocks, f.slots = dict(f.blocks), list(f.slots)
        self.made, self.touched = None, {}
        self.call, self.cred, self.now, self.start = call, call.cred, now, start
        try:
            body = getattr(self, call.name)(**{name.replace("from", "source"): value for name, value in call.args.items()})
            self.finish(before[0])
            return words(OK) + body
        except Refused as refused:
            self.files, self.kept = before
            self.made = None
            return words(refused.status)

    def touch(self, number):
        """The call changes this file: its change number rises once, and its ctime is the moment."""
        self.touched[number] = True

    def finish(self, before):
        """The limits on what a call changes, in their order, and what every changed file gets."""
        for number in self.touched:
            if number in before and before[number].change == LAST_CHANGE:
                raise Refused(FBIG)
        if any(number in self.files and self.files[number].links > MOST_LINKS for number in self.touched):
            raise Refused(NOSPC)
        if any(number in self.files and len(self.files[number].slots) > MOST_SLOTS for number in self.touched):
            raise Refused(NOSPC)
        if self.made == "none":
            raise Refused(NOSPC)
        rise = 0
        for number in self.touched:
            was = before[number].used if number in before else 0
            rise += max(0, self.files[number].used - was if number in self.files else 0)
        if rise > self.capacity - sum(f.used for f in before.values()):
            raise Refused(NOSPC)
        for number in self.touched:
            if number not in self.files:
                self.kept[number] = (before[number].generation, before[number].change + 1)
            elif number in before:
                self.files[number].change += 1
                self.files[number].ctime = self.now
                if self.files[number].slots != before[number].slots:
                    self.files[number].mtime = self.now

    def may(self, file, bits):
        cred = self.cred
        if cred.uid == 0:
            return True
        if cred.uid == file.uid:
            have = file.mode >> 6
        elif file.gid == cred.gid or file.gid in cred.gids:
            have = file.mode >> 3
        else:
            have = file.mode
        if file.kind == REG and cred.uid == file.uid and bits in (4, 2):
            return True
        return have & bits == bits

    def need(self, file, bits):
        if not self.may(file, bits):
            raise Refused(ACCES)

    def names_in(self, *places):
        """The directories of a call with their names, tested in the order that all calls share."""
        looked = [self.file_of(h) for h, _ in places]
        for _, file in looked:
            if file.kind != DIR:
                raise Refused(NOTDIR)
        name = self.call.name
        for k, (_, part) in enumerate(places):
            if len(part) > 255:
                raise Refused(NAMETOOLONG)
            if not part or 0 in part or 47 in part:
                first = name in ("lookup", "remove", "rmdir") or (name == "rename" and k == 0)
                raise Refused(NOENT if first else ACCES)
        for _, file in looked:
            self.need(file, 1 if name == "lookup" else 3)
        return looked

    def getattr(self, file):
        return fattr_words(self.fattr(self.file_of(file)[0]))

    def statfs(self, file):
        self.file_of(file)
        return words(8192, BLOCK, self.capacity, self.free_blocks(), self.free_blocks())

    def setattr(self, file, attributes):
        number, f = self.file_of(file)
        cred, now = self.cred, self.now
        if not attributes:
            return fattr_words(self.fattr(number))
        owner = cred.uid in (0, f.uid)
        if not owner and any(name in attributes for name in ("mode", "uid", "gid", "atime", "mtime")):
            raise Refused(PERM)
        if attributes.get("uid", f.uid) != f.uid and cred.uid != 0:
            raise Refused(PERM)
        gid = attributes.get("gid", f.gid)
        if gid != f.gid and cred.uid != 0 and gid != cred.gid and gid not in cred.gids:
            raise Refused(PERM)
        if "size" in attributes:
            self.check_size(f, attributes["size"])
        f.mode = attributes["mode"] & 0o7777 if "mode" in attributes else f.mode
        f.uid, f.gid = attributes.get("uid", f.uid), gid
        if "size" in attributes:
            f.resize(attributes["size"])
            f.mtime = now
        f.atime, f.mtime = attributes.get("atime", f.atime), attributes.get("mtime", f.mtime)
        if attributes.get("mtime", (0, 0))[1] == 1000000:
            f.atime = f.mtime = now
        elif attributes.get("atime", (0, 0))[1] == 1000000:
            f.atime = now
        self.touch(number)
        self.finish_early(number)
        return fattr_words(self.fattr(number))

    def finish_early(self, number):
        """An answer tells the attributes after the change: its moment is put in before they are told."""
        self.files[number].ctime = self.now

    def check_size(self, f, size):
        if f.kind == DIR:
            raise Refused(ISDIR)
        if f.kind == LNK:
            raise Refused(NXIO)
        self.need(f, 2)
        if size > GREATEST_FILE:
            raise Refused(FBIG)

    def lookup(self, dir, name):
        ((number, d),) = self.names_in((dir, name))
        if name in (b".", b".."):
            return self.found(number if name == b"." else d.parent)
        slot = d.slot_of(name)
        if slot is None:
            raise Refused(NOENT)
        return self.found(d.slots[slot][1])

    def readlink(self, file):
        _, f = self.file_of(file)
        if f.kind != LNK:
            raise Refused(NXIO)
        return text(f.bytes_at(0, f.size))

    def read(self, file, offset, count, totalcount):
        number, f = self.file_of(file)
        if f.kind == DIR:
            raise Refused(ISDIR)
        if f.kind == LNK:
            raise Refused(NXIO)
        if not self.may(f, 4) and not self.may(f, 1):
            raise Refused(ACCES)
        count = min(count, MOST_DATA, max(0, f.size - offset))
        return fattr_words(self.fattr(number)) + text(f.bytes_at(offset, count))

    def write(self, file, beginoffset, offset, totalcount, data):
        number, f = self.file_of(file)
        if f.kind == DIR:
            raise Refused(ISDIR)
        if f.kind == LNK:
            raise Refused(NXIO)
        self.need(f, 2)
        if data:
            if offset + len(data) > GREATEST_FILE:
                raise Refused(FBIG)
            f.write(offset, data)
            f.size = max(f.size, offset + len(data))
            f.mtime = self.now
            self.touch(number)
            self.finish_early(number)
        return fattr_words(self.fattr(number))

    # ---- names

    def put(self, number, name, target):
        d = self.files[number]
        slot = next((k for k, other in enumerate(d.slots) if not other), None)
        if slot is None:
            slot = len(d.slots)
            d.slots += [None] * SLOTS
            d.size = BLOCK * len(d.slots) // SLOTS
        d.slots[slot] = (name, target)
        self.touch(number)

    def make(self, number, name, kind, mode, links, owner, times, content=b""):
        """A new file under a name of a directory; its number is the lowest free one."""
        made = self.first_free(self.start)
        if made is None:
            self.made = "none"
            self.touch(number)
            self.put_place(number)
            return None
        generation, change = self.kept.get(made, (0, 0))
        file = File(kind, mode, links, owner[0], owner[1], generation + 1, change + 1, atime=times[0], mtime=times[1],
                    ctime=self.now, parent=number if kind == DIR else 0)
        if content:
            file.write(0, content)
            file.size = len(content)
        self.files[made] = file
        self.kept.pop(made, None)
        self.put(number, name, made)
        self.touch(made)
        self.made = (made, file.generation)
        return made

    def put_place(self, number):
        """Room for a name where no number is free: the limits that come before are tested all the same."""
        d = self.files[number]
        if all(d.slots):
            d.slots += [None] * SLOTS

    def new_owner(self, attributes):
        cred = self.cred
        uid = attributes.get("uid", cred.uid) if cred.uid == 0 else cred.uid
        gid = attributes.get("gid", cred.gid)
        if cred.uid != 0 and gid != cred.gid and gid not in cred.gids:
            gid = cred.gid
        return uid, gid

    def new_times(self, attributes):
        return attributes.get("atime", self.now), attributes.get("mtime", self.now)

    def create(self, dir, name, attributes):
        ((number, d),) = self.names_in((dir, name))
        if name in (b".", b".."):
            raise Refused(EXIST)
        slot = d.slot_of(name)
        if slot is not None:
            return self.create_over(d.slots[slot][1], attributes)
        mode = attributes.get("mode", 0o100644)
        if mode & 0o170000 not in (0, 0o100000):
            raise Refused(NXIO)
        size = attributes.get("size", 0)
        if size > GREATEST_FILE:
            raise Refused(FBIG)
        made = self.make(number, name, REG, mode & 0o7777, 1, self.new_owner(attributes), self.new_times(attributes))
        if made is None:
            return b""
        self.files[made].size = size
        return self.found(made)

    def create_over(self, number, attributes):
        f = self.files[number]
        if f.kind != REG:
            raise Refused(EXIST)
        if "size" in attributes:
            self.need(f, 2)
            if attributes["size"] > GREATEST_FILE:
                raise Refused(FBIG)
            f.resize(attributes["size"])
            f.mtime = self.now
            self.touch(number)
            self.finish_early(number)
        return self.found(number)

    def mkdir(self, dir, name, attributes):
        ((number, d),) = self.names_in((dir, name))
        if name in (b".", b"..") or d.slot_of(name) is not None:
            raise Refused(EXIST)
        mode = attributes.get("mode", 0o755) & 0o7777
        made = self.make(number, name, DIR, mode, 2, self.new_owner(attributes), self.new_times(attributes))
        self.files[number].links += 1
        return b"" if made is None else self.found(made)

    def symlink(self, dir, name, path, attributes):
        ((number, d),) = self.names_in((dir, name))
        if name in (b".", b"..") or d.slot_of(name) is not None:
            raise Refused(EXIST)
        if not path:
            raise Refused(NOENT)
        self.make(number, name, LNK, 0o777, 1, (self.cred.uid, self.cred.gid), (self.now, self.now), path)
        return b""

    def link(self, source, to, name):
        linked, f = self.file_of(source)
        ((number, d),) = self.names_in((to, name))
        if f.kind == DIR:
            raise Refused(PERM)
        if name in (b".", b"..") or d.slot_of(name) is not None:
            raise Refused(EXIST)
        f.links += 1
        self.touch(linked)
        self.put(number, name, linked)
        return b""

    def drop_link(self, number):
        """A file loses a name; with its last one it is freed."""
        self.files[number].links -= 1
        self.touch(number)
        if self.files[number].links == 0:
            del self.files[number]

    def remove(self, dir, name):
        ((number, d),) = self.names_in((dir, name))
        if name in (b".", b".."):
            raise Refused(ISDIR)
        slot = d.slot_of(name)
        if slot is None:
            raise Refused(NOENT)
        target = d.slots[slot][1]
        if self.files[target].kind == DIR:
            raise Refused(ISDIR)
        d.slots[slot] = None
        self.touch(number)
        self.drop_link(target)
        return b""

    def rmdir(self, dir, name):
        ((number, d),) = self.names_in((dir, name))
        if name in (b".", b".."):
            raise Refused(ACCES)
        slot = d.slot_of(name)
        if slot is None:
            raise Refused(NOENT)
        target = d.slots[slot][1]
        if self.files[target].kind != DIR:
            raise Refused(NOTDIR)
        if not self.files[target].is_empty():
            raise Refused(NOTEMPTY)
        d.slots[slot] = None
        d.links -= 1
        self.touch(number)
        self.touch(target)
        del self.files[target]
        return b""

    def rename(self, source, source_name, to, to_name):
        (a, first), (b, second) = self.names_in((source, source_name), (to, to_name))
        if source_name in (b".", b"..") or to_name in (b".", b".."):
            raise Refused(ACCES)
        slot = first.slot_of(source_name)
        if slot is None:
            raise Refused(NOENT)
        moved = first.slots[slot][1]
        file = self.files[moved]
        there = second.slot_of(to_name)
        over = None if there is None else second.slots[there][1]
        if over == moved:
            return b""
        if over is not None:
            if file.kind == DIR and self.files[over].kind != DIR:
                raise Refused(NOTDIR)
            if file.kind != DIR and self.files[over].kind == DIR:
                raise Refused(ISDIR)
            if not self.files[over].is_empty():
                raise Refused(NOTEMPTY)
        if file.kind == DIR and a != b:
            self.check_parents(moved, b)
        self.move(a, slot, b, to_name, there, moved, over)
        return b""

    def check_parents(self, moved, number):
        chain = [number]
        while chain[-1] != ROOT and len(chain) <= MOST_STEPS + 1:
            chain.append(self.files[chain[-1]].parent)
        if len(chain) - 1 > MOST_STEPS:
            raise Refused(NAMETOOLONG)
        if moved in chain:
            raise Refused(IO)

    def move(self, a, slot, b, name, there, moved, over):
        first, second, file = self.files[a], self.files[b], self.files[moved]
        if there is None:
            self.put(b, name, moved)
        else:
            second.slots[there] = (name, moved)
        first.slots[slot] = None
        for number in (a, b, moved):
            self.touch(number)
        if file.kind == DIR and a != b:
            file.parent = b
            first.links -= 1
            second.links += 1
        if over is not None:
            if self.files[over].kind == DIR:
                second.links -= 1
                self.touch(over)
                del self.files[over]
            else:
                self.drop_link(over)

    def readdir(self, dir, cookie, count):
        number, d = self.file_of(dir)
        if d.kind != DIR:
            raise Refused(NOTDIR)
        self.need(d, 4)
        entries = [(1, number, b"."), (2, d.parent, b"..")]
        entries += [(k + 3, slot[1], slot[0]) for k, slot in enumerate(d.slots) if slot]
        behind = [entry for entry in entries if entry[0] > cookie]
        out, left = b"", min(count, MOST_DATA) - 8
        given = 0
        for place, fileid, name in behind:
            size = 16 + len(name) + -len(name) % 4
            if size > left and given > 0:
                break
            out += words(1, fileid) + text(name) + words(place)
            left, given = left - size, given + 1
        return out + words(0, 1 if given == len(behind) else 0)


def mount_result(call):
    """The result of the mount protocol's procedures, which look at no file."""
    if call.procedure == 1:
        return words(OK) + handle(ROOT) if call.args["path"] == b"/" else words(NOENT)
    if call.procedure == 2:
        return words(0)
    if call.procedure == 5:
        return words(1) + text(b"/") + words(0, 0)
    return b""


class Replay:
    """A schedule's arrivals over one plain tree, each answered in its own event."""

    def __init__(self, cluster):
        self.nodes, memories, blocks, inodes = cluster
        self.memories = memories
        self.tree = Tree(memories, blocks, inodes)
        self.arrivals, self.points = 0, 0

    def arrive(self, node, now, data):
        """The transcript's lines of one arrival."""
        self.arrivals += 1
        a = self.arrivals
        lines = [f"do arrive {a} {node}"]
        what, heard = hear(data)
        if what == "silent":
            return lines + [f"dropped {a} silent"]
        reply, change = self.answer(what, heard, now, a)
        if change:
            self.points += 1
            number, generation = self.tree.made or (0, 0)
            lines.append(f"point {self.points} arrival {a} made {number} {generation}")
        return lines + [f"reply {a} at {self.points} {reply.hex()}"]

    def answer(self, what, heard, now, a):
        if what == "refused":
            return heard, False
        head = words(heard.xid, 1, 0, 0, 0, 0)
        if heard.program != NFS:
            return head + mount_result(heard), False
        if heard.procedure in (0, 3, 7):
            return head, False
        if self.tree.needs_no_files(heard):
            return head + words(STALE), False
        result = self.tree.apply(heard, now, a % self.memories)
        return head + result, bool(self.tree.touched) and result[:4] == words(OK)
