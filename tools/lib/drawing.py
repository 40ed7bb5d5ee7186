"""Draws a run: a column an actor, time downwards, an arrow a message from its post to each delivery."""
from dataclasses import dataclass, field
from html import escape

from messages import Malformed, hear
from readable import told_call
from transcript import arrivals_of, told_reply

LEFT, TOP, COLUMN, ROW, MARGIN = 330, 70, 150, 26, 40
COLOURS = {"prepare": "#1f5fbf", "vote ok": "#1a7f37", "vote": "#c2410c", "decide": "#7c3aed", "done": "#57606a",
           "forget": "#57606a", "list": "#0e7490", "kept": "#0e7490", "ask": "#0e7490", "answer": "#0e7490"}
CUT_COLOUR = "#92400e"
LEGEND = [("prepare", "prepare"), ("vote ok", "vote ok"), ("vote", "other votes"), ("decide", "decide"),
          ("done", "done, forget"), ("list", "list, kept, ask, answer"), ("cut", "cuts and backups")]


class Undrawable(Exception):
    """A line of the transcript that fits no drawing, with its number and why."""

    def __init__(self, line, why):
        super().__init__(f"transcript line {line}: {why}")


@dataclass
class Message:
    number: int
    sender: str
    receiver: str
    words: str
    posted: int
    deliveries: list = field(default_factory=list)
    lost: list = field(default_factory=list)


@dataclass
class Run:
    """What a transcript tells, by the place of its event: 0 is the first `do` line."""
    actors: list
    events: list = field(default_factory=list)
    messages: dict = field(default_factory=dict)
    points: list = field(default_factory=list)
    notes: list = field(default_factory=list)
    down: list = field(default_factory=list)
    up: list = field(default_factory=list)


def colour(words):
    if words in COLOURS:
        return COLOURS[words]
    return COLOURS.get(words.split(" ")[0], CUT_COLOUR)


def actor(words):
    return "mgr" if words[0] == "manager" else {"node": "n", "memory": "m"}[words[0]] + words[1]


def event_text(words, arrivals):
    """What happened, in the left margin."""
    if words[0] == "arrive":
        a = int(words[1])
        what = ""
        if a <= len(arrivals):
            kind, call = hear(arrivals[a - 1].data)
            what = ": " + (" ".join(told_call(call)) if kind == "call" else kind)
        return f"arrival {a} at n{words[2]}{what}"
    return " ".join(words)


def run_of(schedule, transcript):
    """Reads a run; a line that does not fit is refused by its number."""
    first = schedule.split(b"\n")[0].decode("latin-1").split(" ")
    if first[0] != "cluster" or len(first) != 5:
        raise Undrawable(0, "the schedule has no cluster line")
    nodes, memories = int(first[1]), int(first[2])
    run = Run([f"n{k}" for k in range(nodes)] + [f"m{k}" for k in range(memories)] + ["mgr"])
    arrivals = arrivals_of(schedule)
    for number, line in enumerate(transcript.decode("latin-1").split("\n"), 1):
        try:
            note(run, line.split(" "), arrivals)
        except (KeyError, IndexError, ValueError, Malformed) as why:
            raise Undrawable(number, f"it fits no run ({why})") from None
    return run


def note(run, w, arrivals):
    now = len(run.events) - 1
    if w[0] == "do":
        run.events.append(event_text(w[1:], arrivals))
        if w[1] == "deliver":
            message = run.messages[int(w[2])]
            message.deliveries.append(now + 1)
        elif w[1] in ("crash", "start"):
            (run.down if w[1] == "crash" else run.up).append((actor(w[2:]), now + 1))
    elif w[0] == "sent":
        if w[2] not in run.actors or w[3] not in run.actors:
            raise ValueError("an actor that is not there")
        run.messages[int(w[1])] = Message(int(w[1]), w[2], w[3], " ".join(w[4:]), now)
    elif w[0] == "lost":
        run.messages[int(w[1])].lost.append(now)
    elif w[0] == "down":
        run.down.append((actor(w[1:]), now))
        run.notes.append((actor(w[1:]), now, " ".join(w[-1:])))
    elif w[0] == "point":
        run.points.append((now, f"change {w[1]}: arrival {w[3]}"))
    elif w[0] in ("reply", "retry", "dropped", "cut", "backup"):
        run.notes.append((owner(run, w, now), now, answer_text(w, arrivals)))


def owner(run, w, now):
    """The actor at which an answer is told: the one that this event is at."""
    for message in run.messages.values():
        if now in message.deliveries:
            return message.receiver
    text = run.events[now]
    if " at n" in text:
        return "n" + text.split(" at n")[1].split(":")[0]
    if text.startswith("giveup") and text != "giveup manager":
        return "n" + text.split(" ")[1]
    return "mgr"


def answer_text(w, arrivals):
    if w[0] != "reply":
        return " ".join(w)
    a = int(w[1])
    call = arrivals[a - 1].call() if a <= len(arrivals) else None
    words = told_reply(bytes.fromhex(w[4]), call)
    return f"reply {a} after change {w[3]}: " + words[min(1, len(words) - 1)]


class Drawing:
    """The SVG text of a range of a run's events."""

    def __init__(self, run, first, last):
        self.run, self.first, self.last, self.parts = run, first, last, []
        self.width = LEFT + COLUMN * (len(run.actors) - 1) + 4 * MARGIN
        self.height = TOP + ROW * (last - first + 2) + 2 * MARGIN

    def x(self, name):
        return LEFT + COLUMN * self.run.actors.index(name) + MARGIN

    def y(self, event):
        return TOP + ROW * (event - self.first + 1)

    def shown(self, event):
        return self.first <= event <= self.last

    def text(self, x, y, words, anchor="start", more=""):
        self.parts.append(f'<text x="{x}" y="{y}" text-anchor="{anchor}"{more}>{escape(words)}</text>')

    def line(self, x, y, to_x, to_y, more):
        self.parts.append(f'<line x1="{x}" y1="{y}" x2="{to_x}" y2="{to_y}" {more}/>')

    def svg(self):
        self.lifelines()
        for event in range(self.first, self.last + 1):
            self.text(MARGIN / 2, self.y(event) + 4, self.run.events[event], more=' class="event"')
        for message in self.run.messages.values():
            self.message(message)
        for event, words in self.run.points:
            if self.shown(event):
                self.point(event, words)
        self.answers()
        self.legend()
        return self.head() + "\n".join(self.parts) + "\n</svg>\n"

    def head(self):
        return f'''<svg xmlns="http://www.w3.org/2000/svg" viewBox="0 0 {self.width} {self.height}" width="{self.width}" height="{self.height}" role="img">
<title>A run, event by event</title>
<style>text {{ font: 12px sans-serif; fill: #1f2328 }} .event {{ font-size: 11px; fill: #57606a }} .actor {{ font-weight: bold; font-size: 14px }} .label {{ font-size: 10px; paint-order: stroke; stroke: #ffffff; stroke-width: 3px }} .answer {{ font-weight: bold }}</style>
<rect width="{self.width}" height="{self.height}" fill="#ffffff"/>
'''

    def lifelines(self):
        top, bottom = self.y(self.first) - ROW, self.y(self.last) + ROW / 2
        for name in self.run.actors:
            x = self.x(name)
            self.text(x, top - 12, name, "middle", ' class="actor"')
            for start, end, up in self.lives(name, top, bottom):
                self.line(x, start, x, end, 'stroke="#8c959f" stroke-width="2"' if up else 'stroke="#d0d7de" stroke-dasharray="2 5"')

    def lives(self, name, top, bottom):
        """The stretches of an actor's line: where it is up, and where it is down."""
        turns = sorted([(event, False) for who, event in self.run.down if who == name]
                       + [(event, True) for who, event in self.run.up if who == name])
        at, up, out = top, True, []
        for event, rises in turns:
            here = min(max(self.y(event), top), bottom)
            out.append((at, here, up))
            at, up = here, rises
            if self.shown(event):
                self.turn(name, event, rises)
        return out + [(at, bottom, up)]

    def turn(self, name, event, rises):
        x, y = self.x(name), self.y(event)
        if rises:
            self.parts.append(f'<circle cx="{x}" cy="{y}" r="5" fill="#ffffff" stroke="#1a7f37" stroke-width="2"/>')
            self.text(x + 9, y + 4, "start", more=' class="label"')
        else:
            self.cross(x, y, "#cf222e")
            self.text(x + 9, y + 4, "down", more=' class="label"')

    def cross(self, x, y, stroke):
        for dx in (5, -5):
            self.line(x - dx, y - 5, x + dx, y + 5, f'stroke="{stroke}" stroke-width="2"')

    def message(self, message):
        for event in message.deliveries:
            if self.shown(message.posted) or self.shown(event):
                self.arrow(message, event, event in message.lost)
        if not message.deliveries and self.shown(message.posted):
            x, y = self.x(message.sender), self.y(message.posted)
            side = 1 if self.x(message.receiver) > x else -1
            self.line(x, y, x + side * 30, y + 6, f'stroke="{colour(message.words)}" stroke-dasharray="4 3"')
            self.text(x + side * 34, y + 10, f"{message.number} {message.words}", "start" if side > 0 else "end", ' class="label"')

    def arrow(self, message, event, lost):
        x, to_x = self.x(message.sender), self.x(message.receiver)
        top, bottom = self.y(self.first) - ROW / 2, self.y(self.last) + ROW / 2
        y, to_y = max(self.y(message.posted), top), min(self.y(event), bottom)
        stroke, side = colour(message.words), 1 if to_x > x else -1
        dashed = ' stroke-dasharray="4 3"' if lost else ""
        self.line(x, y, to_x - 4 * side, to_y, f'stroke="{stroke}" stroke-width="1.5"{dashed}')
        if not self.shown(event):
            return
        if lost:
            self.cross(to_x, to_y, stroke)
        else:
            self.parts.append(f'<path d="M{to_x - side},{to_y} l{-9 * side},-4 l0,8 z" fill="{stroke}"/>')
        self.text(to_x - 14 * side, to_y - 4, f"{message.number} {message.words}", "end" if side > 0 else "start",
                  f' class="label" fill="{stroke}"')

    def point(self, event, words):
        place = next((m.receiver for m in self.run.messages.values() if event in m.deliveries), None)
        x = self.x(place or actor(self.run.events[event].split(" ")[1:]))
        y = self.y(event)
        self.parts.append(f'<path d="M{x},{y - 8} l8,8 l-8,8 l-8,-8 z" fill="#bf8700" stroke="#1f2328"/>')
        self.text(x + 12, y + 4, words, more=' class="answer"')

    def answers(self):
        for name, event, words in self.run.notes:
            if self.shown(event):
                self.text(self.x(name) + 9, self.y(event) + 13, words, more=' class="answer"')

    def legend(self):
        y = self.height - MARGIN / 2
        x = MARGIN / 2
        for kind, words in LEGEND:
            stroke = COLOURS.get(kind, CUT_COLOUR)
            self.line(x, y - 4, x + 24, y - 4, f'stroke="{stroke}" stroke-width="3"')
            self.text(x + 28, y, words, more=' class="label"')
            x += 60 + 7 * len(words)


def drawn(schedule, transcript, events=None):
    """The drawing of a run, or of the events from the first to the last of a range, counted from 1."""
    run = run_of(schedule, transcript)
    if not run.events:
        raise Undrawable(0, "there are no events")
    first, last = events or (1, len(run.events))
    if not 1 <= first <= last <= len(run.events):
        raise Undrawable(0, f"the events are 1 to {len(run.events)}")
    return Drawing(run, first - 1, last - 1).svg()
