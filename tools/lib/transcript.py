"""Transcripts as people read them: docs/USING.md, "Readable transcripts"."""
from dataclasses import dataclass

from messages import (FATTR, MOUNT, PROCEDURES, STATUS, TIMES, TYPES, Malformed, Reader, hear, read_mount_result,
                      read_result, result_by_shape)
from readable import Unreadable, moment, octal, quoted, told_call, told_cred, told_handle

AUTH = {1: "AUTH_BADCRED", 2: "AUTH_REJECTEDCRED", 3: "AUTH_BADVERF"}
ACCEPTED = {1: "PROG_UNAVAIL", 2: "PROG_MISMATCH", 3: "PROC_UNAVAIL", 4: "GARBAGE_ARGS"}


def status_name(status):
    return "NFS_OK" if status == 0 else "NFSERR_" + STATUS[status]


def told_fattr(attr):
    words = []
    for name in FATTR:
        value = attr[name]
        words.append(f"type=NF{TYPES[value]}" if name == "type" else f"mode={octal(value)}" if name == "mode" else f"{name}={value}")
    return words + [f"{name}={moment(attr[name])}" for name in TIMES]


def told_result(fields):
    """The words of a result's fields."""
    words = []
    for name, value in fields:
        if name == "status":
            words.append(status_name(value))
        elif name == "attributes":
            words += told_fattr(value)
        elif name == "file":
            words.append(f"file={told_handle(value)}")
        elif name in ("path", "data"):
            words.append(f"{name}={quoted(value)}")
        elif name == "entries":
            words += [f"entry fileid={fileid} name={quoted(text)} cookie={cookie}" for fileid, text, cookie in value]
        elif name == "exports":
            words += [f"directory={quoted(path)} groups={groups}" for path, groups in value]
        else:
            words.append(f"{name}={value}")
    return words


def told_reply(data, call=None):
    """What a reply says: the call, where it is known, tells the form of its result."""
    reader = Reader(data)
    xid, kind, state = reader.number(), reader.number(), reader.number()
    if kind != 1:
        raise Malformed("no reply")
    words = [f"xid={xid}"]
    if state == 1:
        if reader.number() == 0:
            return words + ["RPC_MISMATCH", f"low={reader.number()}", f"high={reader.number()}"]
        return words + ["AUTH_ERROR", AUTH[reader.number()]]
    reader.take(8)
    status = reader.number()
    if status:
        words.append(ACCEPTED[status])
        return words + ([f"low={reader.number()}", f"high={reader.number()}"] if status == 2 else [])
    body = reader.rest()
    if call is None:
        fields = result_by_shape(body)
    elif call.program == MOUNT:
        fields = read_mount_result(call.procedure, body)
    else:
        fields = read_result(PROCEDURES[call.procedure][2], body)
    return words + (told_result(fields) or ["SUCCESS"])


def actor(words):
    """An actor in words of a line: `node 0`, `memory 1`, `manager`."""
    return {"node": "n", "memory": "m"}[words[0]] + words[1] if words[0] != "manager" else "mgr"


def identifier(words):
    return f"n{words[0]} boot {words[1]} number {words[2]}"


def told_file(words):
    names = ("size", "change")
    number, generation, kind, mode, links, uid, gid = words[:7]
    out = [f"file #{number}.{generation}", kind, f"mode={mode}", f"nlink={links}", f"uid={uid}", f"gid={gid}"]
    out += [f"{name}={value}" for name, value in zip(names, words[7:9])]
    times = [(int(words[k]), int(words[k + 1])) for k in (9, 11, 13)]
    return " ".join(out + [f"{name}={moment(time)}" for name, time in zip(TIMES, times)])


@dataclass
class Arrival:
    """A call of the schedule, where there is one: who it came from, when, and what it asks for."""
    time: tuple
    data: bytes

    def told(self):
        what, call = hear(self.data)
        if what != "call":
            return f"at {moment(self.time)}: bytes {self.data.hex()}"
        return f"at {moment(self.time)} {told_cred(call.cred)}: " + " ".join(told_call(call))

    def call(self):
        what, call = hear(self.data)
        return call if what == "call" else None


def arrivals_of(schedule):
    """The arrivals of a schedule's text, in order."""
    found = []
    for place, line in enumerate(schedule.decode("latin-1").split("\n"), 1):
        words = line.split(" ")
        if words[0] == "arrive":
            try:
                found.append(Arrival((int(words[2]), int(words[3])), bytes.fromhex(words[4])))
            except (IndexError, ValueError):
                raise Unreadable(place, "it is no arrival") from None
        if line == "end":
            break
    return found


RETRY = {
    "mismatch": lambda w: f"the bytes at {w[1]} of m{w[0]} are not those that were compared",
    "locked": lambda w: f"m{w[0]} holds a lock for {identifier(w[1:])}",
    "held": lambda w: f"m{w[0]} holds the cut boot {w[1]} number {w[2]}",
    "forced": lambda w: f"m{w[0]} was forced to abort it",
    "unreached": lambda w: "it was given up",
    "lost": lambda w: f"m{w[0]} lost the cut",
    "vault": lambda w: "the vault failed",
}
WHY = {"stop": "the schedule's stop", "fault": "its disk failed", "full": "its log is full", "spent": "its boot number is spent",
       "damaged": "its disk is damaged or another's"}
DROPPED = {"down": "the node is down", "silent": "the bytes are no call", "full": "32 arrivals wait"}


def told_line(place, line, arrivals):
    """The readable form of one line of a transcript; a line outside the grammar is refused by its number."""
    try:
        return told_words(line.split(" "), arrivals)
    except (KeyError, IndexError, ValueError, Malformed):
        raise Unreadable(place, f"{line[:60]!r} is no line of a transcript") from None


def told_words(w, arrivals):
    head = w[0]
    if head == "do":
        if w[1] != "arrive":
            return " ".join(w[1:])
        known = int(w[2]) <= len(arrivals)
        return f"arrival {w[2]} at n{w[3]}" + (f" {arrivals[int(w[2]) - 1].told()}" if known else "")
    if head == "reply":
        known = int(w[1]) <= len(arrivals)
        call = arrivals[int(w[1]) - 1].call() if known else None
        return f"  reply {w[1]} after change {w[3]}: " + " ".join(told_reply(bytes.fromhex(w[4]), call))
    if head == "point":
        made = "" if w[5:] == ["0", "0"] else f", which makes #{w[5]}" + ("" if w[6] == "1" else f".{w[6]}")
        return f"  change {w[1]}: that of arrival {w[3]}{made}"
    if head == "sent":
        return f"  message {w[1]}: {w[2]} to {w[3]}, {' '.join(w[4:])}"
    return told_event(w)


def told_event(w):
    head = w[0]
    if head == "lost":
        return f"  message {w[1]} is lost: its receiver is down"
    if head == "down":
        return f"  {actor(w[1:-1])} goes down: {WHY[w[-1]]}"
    if head == "retry" and w[1] != "backup":
        return f"  no reply to {w[1]}, to be tried again: {RETRY[w[2]](w[3:])}"
    if head == "retry":
        return f"  backup {w[2]} ends: {RETRY[w[3]](w[4:])}"
    if head == "dropped":
        why = f"the bytes at {w[4]} of m{w[3]} are damaged" if w[2] == "damaged" else DROPPED[w[2]]
        return f"  no reply to {w[1]}: {why}"
    if head == "cut":
        return f"  backup {w[1]} is of change {w[3]}"
    if head == "backup":
        return f"  backup {w[1]} is done"
    if head == "mounted":
        return f"  backup {w[1]} " + ({"failed": "could not be read", "bad": "is no file system"}.get(w[2]) or f"has {w[2]} lines")
    return told_listed(w)


def told_listed(w):
    head = w[0]
    if head == "file":
        return "    " + told_file(w[1:])
    if head == "name":
        return f"    slot {w[2]} of #{w[1]}: {quoted(bytes.fromhex(w[3]))} is #{w[4]}"
    if head == "data":
        return f"    block {w[2]} of #{w[1]}: {quoted(bytes.fromhex(w[3]).rstrip(bytes(1)))} and zeros"
    if head == "refused":
        return f"line {w[1]} of the schedule is refused"
    if head == "end" and len(w) == 1:
        return "end"
    raise ValueError(head)


def told_transcript(data, arrivals=()):
    lines = data.decode("latin-1").split("\n")
    if not lines[-1]:
        lines.pop()
    return "".join(told_line(place, line, arrivals) + "\n" for place, line in enumerate(lines, 1))
