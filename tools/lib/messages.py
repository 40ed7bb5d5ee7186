"""RPC (RFC 1057), NFS version 2 and mount (RFC 1094) messages: values to bytes and back."""
import struct
from dataclasses import dataclass, field

NFS, MOUNT = 100003, 100005
UNSET = 0xFFFFFFFF
NOBODY = 65534

STATUS = {0: "OK", 1: "PERM", 2: "NOENT", 5: "IO", 6: "NXIO", 13: "ACCES", 17: "EXIST", 19: "NODEV", 20: "NOTDIR",
          21: "ISDIR", 27: "FBIG", 28: "NOSPC", 30: "ROFS", 63: "NAMETOOLONG", 66: "NOTEMPTY", 69: "DQUOT",
          70: "STALE", 99: "WFLUSH"}
TYPES = {0: "NON", 1: "REG", 2: "DIR", 3: "BLK", 4: "CHR", 5: "LNK"}

SATTR = ("mode", "uid", "gid", "size")
FATTR = ("type", "mode", "nlink", "uid", "gid", "size", "blocksize", "rdev", "blocks", "fsid", "fileid")
TIMES = ("atime", "mtime", "ctime")

# Of each NFS procedure its name, its arguments (name, kind), and the form of its result behind the status OK.
PROCEDURES = {
    0: ("null", [], "empty"),
    1: ("getattr", [("file", "handle")], "attr"),
    2: ("setattr", [("file", "handle"), ("attributes", "sattr")], "attr"),
    3: ("root", [], "empty"),
    4: ("lookup", [("dir", "handle"), ("name", "text")], "found"),
    5: ("readlink", [("file", "handle")], "path"),
    6: ("read", [("file", "handle"), ("offset", "number"), ("count", "number"), ("totalcount", "number")], "part"),
    7: ("writecache", [], "empty"),
    8: ("write", [("file", "handle"), ("beginoffset", "number"), ("offset", "number"), ("totalcount", "number"),
                  ("data", "text")], "attr"),
    9: ("create", [("dir", "handle"), ("name", "text"), ("attributes", "sattr")], "found"),
    10: ("remove", [("dir", "handle"), ("name", "text")], "plain"),
    11: ("rename", [("from", "handle"), ("from_name", "text"), ("to", "handle"), ("to_name", "text")], "plain"),
    12: ("link", [("from", "handle"), ("to", "handle"), ("name", "text")], "plain"),
    13: ("symlink", [("dir", "handle"), ("name", "text"), ("path", "text"), ("attributes", "sattr")], "plain"),
    14: ("mkdir", [("dir", "handle"), ("name", "text"), ("attributes", "sattr")], "found"),
    15: ("rmdir", [("dir", "handle"), ("name", "text")], "plain"),
    16: ("readdir", [("dir", "handle"), ("cookie", "number"), ("count", "number")], "names"),
    17: ("statfs", [("file", "handle")], "space"),
}
MOUNT_PROCEDURES = {0: ("mntnull", []), 1: ("mnt", [("path", "text")]), 2: ("dump", []), 3: ("umnt", [("path", "text")]),
                    4: ("umntall", []), 5: ("export", [])}
BY_NAME = {name: (NFS, number) for number, (name, _, _) in PROCEDURES.items()}
BY_NAME.update({name: (MOUNT, number) for number, (name, _) in MOUNT_PROCEDURES.items()})
LONGEST = {"name": 1024, "from_name": 1024, "to_name": 1024, "path": 1024, "data": 8192}


class Malformed(Exception):
    """Bytes that are no such message."""


class Reader:
    """Goes through the items of a message from left to right."""

    def __init__(self, data):
        self.data, self.at = data, 0

    def take(self, n):
        if self.at + n > len(self.data):
            raise Malformed("cut short")
        self.at += n
        return self.data[self.at - n:self.at]

    def number(self):
        return struct.unpack(">I", self.take(4))[0]

    def text(self, longest=UNSET):
        n = self.number()
        if n > longest:
            raise Malformed("too long")
        body = self.take(n)
        self.take(-n % 4)
        return body

    def rest(self):
        return self.data[self.at:]


def words(*numbers):
    return struct.pack(f">{len(numbers)}I", *numbers)


def text(body):
    return words(len(body)) + body + bytes(-len(body) % 4)


def handle(number, generation=1):
    return words(0x53465331, number, generation) + bytes(20)


def handle_parts(h):
    """The number and the generation in a handle, or None where it is none of this file system."""
    number, generation = struct.unpack(">II", h[4:12])
    return (number, generation) if h == handle(number, generation) else None


@dataclass
class Cred:
    """Who calls: AUTH_NULL is nobody without further groups."""
    uid: int = 0
    gid: int = 0
    gids: tuple = ()
    stamp: int = 0
    machine: bytes = b""

    def is_null(self):
        return (self.uid, self.gid, self.gids, self.stamp, self.machine) == (NOBODY, NOBODY, (), 0, b"")

    def spelled(self):
        if self.is_null():
            return words(0, 0)
        body = words(self.stamp) + text(self.machine) + words(self.uid, self.gid, len(self.gids), *self.gids)
        return words(1) + text(body)


@dataclass
class Call:
    """One call: its program and procedure, and its arguments by their names."""
    xid: int
    program: int
    procedure: int
    cred: Cred
    args: dict = field(default_factory=dict)

    @property
    def name(self):
        return (PROCEDURES if self.program == NFS else MOUNT_PROCEDURES)[self.procedure][0]

    def fields(self):
        return (PROCEDURES if self.program == NFS else MOUNT_PROCEDURES)[self.procedure][1]

    def spelled(self):
        version = 2 if self.program == NFS else 1
        out = words(self.xid, 0, 2, self.program, version, self.procedure) + self.cred.spelled() + words(0, 0)
        for name, kind in self.fields():
            value = self.args[name]
            if kind == "handle":
                out += value
            elif kind == "number":
                out += words(value)
            elif kind == "text":
                out += text(value)
            else:
                out += sattr_words(value)
        return out


def sattr_words(attributes):
    """The words of a sattr: what is not there is not set."""
    times = [attributes.get(name, (UNSET, UNSET)) for name in ("atime", "mtime")]
    return words(*[attributes.get(name, UNSET) for name in SATTR], *times[0], *times[1])


def read_sattr(reader):
    numbers = [reader.number() for _ in range(8)]
    attributes = {name: number for name, number in zip(SATTR, numbers) if number != UNSET}
    for name, time in (("atime", tuple(numbers[4:6])), ("mtime", tuple(numbers[6:8]))):
        if time != (UNSET, UNSET):
            attributes[name] = time
    return attributes


def read_args(program, procedure, data):
    reader, args = Reader(data), {}
    for name, kind in (PROCEDURES if program == NFS else MOUNT_PROCEDURES)[procedure][1]:
        if kind == "handle":
            args[name] = reader.take(32)
        elif kind == "number":
            args[name] = reader.number()
        elif kind == "text":
            args[name] = reader.text(LONGEST[name])
        else:
            args[name] = read_sattr(reader)
    return args


# What a datagram is heard as: ("call", Call), ("refused", bytes) or ("silent", None).
def hear(data):
    if len(data) < 24:
        return "silent", None
    xid, kind, rpc, program, version, procedure = struct.unpack(">6I", data[:24])
    if kind != 0:
        return "silent", None
    refused = lambda *numbers: ("refused", words(xid, 1, *numbers))
    if rpc != 2:
        return refused(1, 0, 2, 2)
    reader = Reader(data[24:])
    try:
        flavor, length = reader.number(), reader.number()
        if length > 400:
            return refused(1, 1, 1)
        body = reader.take(length)
        reader.take(-length % 4)
    except Malformed:
        return "silent", None
    if flavor not in (0, 1):
        return refused(1, 1, 2)
    cred = Cred(NOBODY, NOBODY)
    if flavor == 1:
        try:
            unix = Reader(body)
            stamp, machine = unix.number(), unix.text(255)
            uid, gid, count = unix.number(), unix.number(), unix.number()
            if count > 16:
                raise Malformed("groups")
            cred = Cred(uid, gid, tuple(unix.number() for _ in range(count)), stamp, machine)
        except Malformed:
            return refused(1, 1, 1)
    try:
        reader.number()
        length = reader.number()
        if length > 400:
            return refused(1, 1, 3)
        reader.take(length)
        reader.take(-length % 4)
    except Malformed:
        return "silent", None
    if program not in (NFS, MOUNT):
        return refused(0, 0, 0, 1)
    its = 2 if program == NFS else 1
    if version != its:
        return refused(0, 0, 0, 2, its, its)
    if procedure > (17 if program == NFS else 5):
        return refused(0, 0, 0, 3)
    try:
        return "call", Call(xid, program, procedure, cred, read_args(program, procedure, reader.rest()))
    except Malformed:
        return refused(0, 0, 0, 4)


def fattr_words(attr):
    times = [word for name in TIMES for word in attr[name]]
    return words(*[attr[name] for name in FATTR], *times)


def read_fattr(reader):
    attr = {name: reader.number() for name in FATTR}
    attr.update({name: (reader.number(), reader.number()) for name in TIMES})
    return attr


def read_result(form, data):
    """The fields of an NFS result of a form, in order; Malformed where the bytes are none."""
    reader = Reader(data)
    if form == "empty":
        result = []
    else:
        status = reader.number()
        result = [("status", status)]
        if status == 0:
            result += read_body(form, reader)
    if reader.rest():
        raise Malformed("bytes behind the result")
    return result


def read_body(form, reader):
    if form == "plain":
        return []
    if form == "attr":
        return [("attributes", read_fattr(reader))]
    if form == "found":
        return [("file", reader.take(32)), ("attributes", read_fattr(reader))]
    if form == "root":
        return [("file", reader.take(32))]
    if form == "path":
        return [("path", reader.text(1024))]
    if form == "part":
        return [("attributes", read_fattr(reader)), ("data", reader.text(8192))]
    if form == "space":
        return [(name, reader.number()) for name in ("tsize", "bsize", "blocks", "bfree", "bavail")]
    entries = []
    while reader.number():
        entries.append((reader.number(), reader.text(1024), reader.number()))
    return [("entries", entries), ("eof", reader.number())]


def read_mount_result(procedure, data):
    if procedure in (0, 3, 4):
        if data:
            raise Malformed("bytes behind the result")
        return []
    if procedure == 1:
        return read_result("root", data)
    reader = Reader(data)
    if procedure == 2:
        result = [("mounts", reader.number())]
    else:
        exports = []
        while reader.number():
            exports.append((reader.text(1024), reader.number()))
        result = [("exports", exports)]
    if reader.rest():
        raise Malformed("bytes behind the result")
    return result


FORMS = ("empty", "plain", "attr", "found", "root", "space", "names", "part", "path")


def result_by_shape(data):
    """A result read without its call: the forms exclude each other but for those with no bytes behind the status."""
    for form in FORMS:
        try:
            result = read_result(form, data)
        except Malformed:
            continue
        values = dict(result)
        if values.get("status", 0) not in STATUS:
            continue
        if "file" in values and handle_parts(values["file"]) is None:
            continue
        if "attributes" in values and values["attributes"]["type"] not in TYPES:
            continue
        if form == "space" and values.get("tsize", 8192) != 8192:
            continue
        if form == "names" and values.get("eof", 0) not in (0, 1):
            continue
        return result
    return read_mount_result(5, data)
