"""Schedules as people write them, and back: docs/USING.md, "Readable schedules"."""
import re

from messages import (BY_NAME, LONGEST, NOBODY, SATTR, Call, Cred, handle, handle_parts, hear)
from tree import Replay

TOKEN = re.compile(r'\s*("(?:[^"\\]|\\.)*"(?:\*\d+)?|[^\s"]+=\S*|[^\s"]+)')
PIECE = re.compile(r'\\(x[0-9a-f]{2}|.)', re.S)
EVENT = re.compile(r"(deliver|drain|lose|giveup|resend|crash|start|sweep|checkpoint|backup|show|cluster|end)( .*)?$")
ESCAPES = {"n": "\n", "t": "\t", "r": "\r", '"': '"', "\\": "\\"}
REPEATED = 32


class Unreadable(Exception):
    """A line that cannot be told, with its number and why."""

    def __init__(self, line, why):
        super().__init__(f"line {line}: {why}")


# ---- words

def quoted(data):
    """Bytes as a text in quotes; one byte many times over with its count."""
    if len(data) > REPEATED and data.count(data[:1]) == len(data):
        return f"{quoted(data[:1])}*{len(data)}"
    out = []
    for byte in data:
        if byte in (34, 92):
            out.append("\\" + chr(byte))
        elif byte == 10:
            out.append("\\n")
        elif 32 <= byte < 127:
            out.append(chr(byte))
        else:
            out.append(f"\\x{byte:02x}")
    return '"' + "".join(out) + '"'


def unquoted(word):
    """The bytes of a text in quotes."""
    body, _, count = word.rpartition('"')
    pieces = PIECE.sub(lambda m: chr(int(m[1][1:], 16)) if len(m[1]) == 3 else ESCAPES.get(m[1], m[1]), body[1:])
    data = b"".join(c.encode("utf-8") if ord(c) > 255 else bytes([ord(c)]) for c in pieces)
    return data * (int(count[1:]) if count else 1)


def number(word, base=10):
    """A number below 2^32 in a word."""
    try:
        value = int(word, base)
    except ValueError:
        raise ValueError(f"{word!r} is no number") from None
    if not 0 <= value < 2 ** 32:
        raise ValueError(f"{word} is no number below 2^32")
    return value


def octal(mode):
    return f"0{mode:o}" if mode else "0"


def moment(time):
    return f"{time[0]}.{time[1]:06d}"


def parsed_moment(word):
    match = re.fullmatch(r"(\d+)(?:\.(\d+))?", word)
    if not match:
        raise ValueError(f"{word} is no moment, as 100 or 100.000007")
    usec = match[2] or "0"
    return number(match[1]), number(usec if len(usec) >= 6 else usec.ljust(6, "0"))


def told_handle(h):
    parts = handle_parts(h)
    if parts is None:
        return f"handle={h.hex()}"
    if parts == (1, 1):
        return "/"
    return f"#{parts[0]}" if parts[1] == 1 else f"#{parts[0]}.{parts[1]}"


def told_sattr(attributes):
    out = []
    for name, value in attributes.items():
        if name in SATTR:
            out.append(f"{name}={octal(value)}" if name == "mode" else f"{name}={value}")
        else:
            out.append(f"{name}={moment(value)}")
    return out


def told_cred(cred):
    """The words of a line `as ..`."""
    if cred.is_null():
        return "as nobody"
    words = [f"uid={cred.uid}", f"gid={cred.gid}"]
    words += ["gids=" + ",".join(map(str, cred.gids))] if cred.gids else []
    words += [f"stamp={cred.stamp}"] if cred.stamp else []
    words += [f"machine={quoted(cred.machine)}"] if cred.machine else []
    return "as " + " ".join(words)


def told_call(call):
    """The words of a call behind its node."""
    words = [call.name]
    for name, kind in call.fields():
        value = call.args[name]
        if kind == "handle":
            words.append(told_handle(value))
        elif kind == "text":
            words.append(quoted(value))
        elif kind == "sattr":
            words += told_sattr(value)
        elif name in ("offset", "count", "cookie"):
            words.append(f"{'at' if name == 'offset' else name} {value}")
        elif value:
            words.append(f"{name}={value}")
    return words


# ---- from a schedule

class Teller:
    """Tells the lines of a schedule one after another. It keeps what the lines before have set."""

    def __init__(self):
        self.arrivals, self.time, self.cred = 0, (0, 0), Cred()

    def lines(self, data):
        """The readable lines of a whole schedule."""
        ended = False
        pieces = data.split(b"\n")
        whole, last = pieces[:-1], pieces[-1]
        for place, line in enumerate(whole):
            told = None if ended else self.line(line, place == 0)
            ended = ended or line == b"end"
            yield from told if told is not None else ["text " + quoted(line)]
        if last:
            yield "unended " + quoted(last)

    def line(self, line, first):
        """What a line of the grammar is told as; None for any other."""
        try:
            text = line.decode("ascii")
        except UnicodeDecodeError:
            return None
        words = text.split(" ")
        if first or words[0] != "arrive":
            plain = EVENT.fullmatch(text) and (words[0] == "cluster") == first and '"' not in text and "#" not in text
            return [text] if plain and text == " ".join(text.split()) else None
        fits = re.fullmatch(r"arrive (0|[1-9]\d*) (0|[1-9]\d*) (0|[1-9]\d*) ([0-9a-f]{2})+", text)
        if not fits or any(int(word) >= 2 ** 32 for word in words[1:4]):
            return None
        self.arrivals += 1
        return self.arrival(int(words[1]), (int(words[2]), int(words[3])), bytes.fromhex(words[4]))

    def arrival(self, node, time, data):
        told = []
        if time != self.time:
            told.append(f"time {moment(time)}")
            self.time = time
        what, call = hear(data)
        if what != "call" or call.spelled() != data:
            return told + [f"n{node} bytes {data.hex()}"]
        if call.cred != self.cred:
            told.append(told_cred(call.cred))
            self.cred = call.cred
        words = told_call(call)
        if call.xid != self.arrivals:
            words.append(f"xid={call.xid}")
        return told + [f"n{node} " + " ".join(words)]


def told_schedule(data):
    return "".join(line + "\n" for line in Teller().lines(data))


# ---- to a schedule

class Writer:
    """Writes the lines of a schedule. It follows the calls over a plain tree, so that files can be named by paths."""

    def __init__(self):
        self.time, self.cred, self.replay, self.arrivals = (0, 0), Cred(), None, 0

    def schedule(self, text):
        out = []
        for place, line in enumerate(text.split("\n"), 1):
            try:
                out.append(self.line(line))
            except (ValueError, KeyError, IndexError) as why:
                raise Unreadable(place, why if isinstance(why, ValueError) else "it lacks a word") from None
        return b"".join(out)

    def line(self, line):
        words = self.words(line)
        if not words:
            return b""
        head, rest = words[0], words[1:]
        if head == "time":
            self.time = parsed_moment(self.only(rest))
        elif head == "as":
            self.cred = self.parsed_cred(rest)
        elif head in ("text", "unended"):
            return unquoted(self.only(rest)) + (b"\n" if head == "text" else b"")
        elif re.fullmatch(r"n\d+", head):
            return self.arrival(int(head[1:]), rest)
        elif EVENT.fullmatch(" ".join(words)):
            if head == "cluster":
                self.open(rest)
            return (" ".join(words) + "\n").encode()
        else:
            raise ValueError(f"{head} is no word of a schedule")
        return b""

    @staticmethod
    def words(line):
        """The words of a line; what stands behind a # that is followed by a space, or ends the line, is a comment."""
        words, at = [], 0
        line = line.rstrip()
        while at < len(line):
            match = TOKEN.match(line, at)
            if not match:
                raise ValueError("a text in quotes does not end")
            if match[1] == "#":
                break
            words.append(match[1])
            at = match.end()
        return words

    @staticmethod
    def only(words):
        if len(words) != 1:
            raise ValueError("it takes one word")
        return words[0]

    def open(self, numbers):
        try:
            cluster = [int(n) for n in numbers]
            fits = len(cluster) == 4 and all(0 < n <= 8 for n in cluster[:2]) and all(0 < n <= 16384 for n in cluster[2:])
            self.replay = Replay(cluster) if fits else None
        except ValueError:
            self.replay = None

    def parsed_cred(self, words):
        if words == ["nobody"]:
            return Cred(NOBODY, NOBODY)
        cred = Cred()
        for word in words:
            name, _, value = word.partition("=")
            if name in ("uid", "gid", "stamp"):
                setattr(cred, name, number(value))
            elif name == "gids":
                cred.gids = tuple(number(gid) for gid in value.split(",") if gid)
            elif name == "machine":
                cred.machine = unquoted(value)
            else:
                raise ValueError(f"{word} says nothing of a caller")
        return cred

    def arrival(self, node, words):
        self.arrivals += 1
        if words[0] == "bytes":
            data = bytes.fromhex(self.only(words[1:]))
        else:
            data = self.parsed_call(words).spelled()
        if self.replay:
            self.replay.arrive(node, self.time, data)
        return f"arrive {node} {self.time[0]} {self.time[1]} {data.hex()}\n".encode()

    def parsed_call(self, words):
        if words[0] not in BY_NAME:
            raise ValueError(f"{words[0]} is no procedure")
        program, procedure = BY_NAME[words[0]]
        call = Call(self.arrivals, program, procedure, self.cred)
        plain = [word for word in words[1:] if not self.is_named(word)]
        named = dict(word.split("=", 1) for word in words[1:] if self.is_named(word))
        call.xid = number(named.pop("xid", str(call.xid)))
        for name, kind in call.fields():
            call.args[name] = self.argument(name, kind, plain, named)
        if plain or named:
            raise ValueError(f"{(plain + list(named))[0]} is too much")
        return call

    @staticmethod
    def is_named(word):
        return "=" in word and not word.startswith(('"', "handle=", "/"))

    def argument(self, name, kind, plain, named):
        if kind == "handle":
            return self.parsed_handle(plain.pop(0))
        if kind == "text":
            word = plain.pop(0)
            if not word.startswith('"'):
                raise ValueError(f"{word} is no text in quotes")
            data = unquoted(word)
            if len(data) > LONGEST[name]:
                raise ValueError(f"the {name} has {len(data)} bytes, more than {LONGEST[name]}")
            return data
        if kind == "sattr":
            return self.parsed_sattr(named)
        if name in ("offset", "count", "cookie"):
            mark = "at" if name == "offset" else name
            if plain.pop(0) != mark:
                raise ValueError(f"the {name} wants the word {mark} before it")
            return number(plain.pop(0))
        return number(named.pop(name, "0"))

    @staticmethod
    def parsed_sattr(named):
        attributes = {}
        for name in list(named):
            value = named.pop(name)
            if name in ("atime", "mtime"):
                attributes[name] = parsed_moment(value)
            elif name in SATTR:
                attributes[name] = number(value, 8 if name == "mode" else 10)
            else:
                raise ValueError(f"{name} is no attribute that is set")
        return attributes

    def parsed_handle(self, word):
        match = re.fullmatch(r"#(\d+)(?:\.(\d+))?", word)
        if match:
            return handle(number(match[1]), number(match[2] or "1"))
        if re.fullmatch(r"handle=[0-9a-f]{64}", word):
            return bytes.fromhex(word[7:])
        if word == "/":
            return handle(1)
        if not word.startswith("/"):
            raise ValueError(f"{word} is no file, as /notes, #2 or #2.3")
        found = self.replay and self.replay.tree.at_path(word.encode())
        if not found:
            raise ValueError(f"there is no file {word} after the lines before")
        return handle(found, self.replay.tree.files[found].generation)


def written_schedule(text):
    return Writer().schedule(text)
