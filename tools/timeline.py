#!/usr/bin/env python3
"""Draws a walk or a live run, with its lines, as a time line: SVG that needs nothing else.

    tools/timeline.py examples/stopped.json < examples/stopped.out > stopped.svg
    crates/tiwalk/out/tiwalk live < SCRIPT | tools/timeline.py SCRIPT > picture.svg

It takes the document as its argument, and what `tiwalk` wrote for it on standard input.

Of a walk, time runs from left to right, a column for each event. A thread has a lane, coloured by its mode. Its frames are a
stair in it, and a line below it says when it is suspended or stopped. An agent has a lane with its calls. An arrow goes from
a call to where it took place: of a call that waited that is the thread's next hand-over. The arrow of a call that was never
answered is dashed. What was refused is crossed out; a call that its thread answered with an error is red.

Of a live run, each thread has a lane with its operations in their order, coloured by the mode that it is in after each. An
agent has a lane with its calls, each with its reply. Between the lanes there is no order.

The texts of all lines are in the picture's tool tips. The status is 0, or 1 with a line on standard error for a document
that is neither, or lines that are not of it.
"""

import argparse
import dataclasses
import html
import json
import sys

COLUMN = 34
LANE = 64
AGENT_LANE = 48
LEFT = 96
TOP = 40
STAIR = 40
GREY = 'fill="#777777"'
RED = "#c62828"
BLUE = "#1565c0"
PINK = "#c2185b"
VIOLET = "#6a1b9a"

MODES = {
    "new": ("#eeeeee", "new"),
    "running": ("#b7e1b1", "running"),
    "native": ("#c9d8f5", "in native code"),
    "blocked": ("#f3d9a4", "blocked"),
    "held": ("#e6c3e8", "held at a poll"),
    "ended": ("#bdbdbd", "ended"),
}
WAITING = {"count", "trace", "location", "suspend", "pop"}
# What an agent's call is refused with before it reaches its thread. A trace is also told 103 by its thread.
UNREACHED = {"10", "98", "99", "209", "110", "116"}


@dataclasses.dataclass
class Span:
    """A thread in one mode, from one column to another."""

    mode: str
    first: int
    last: int


class Thread:
    def __init__(self, name, lane):
        self.name = name
        self.lane = lane
        self.mode = "new"
        self.since = 0
        self.spans = []
        self.depth = 0
        self.stair = [(0, 0)]
        self.waiting = []
        self.bars = {}
        self.barred = []
        self.refused = []

    def turn(self, mode, column):
        """The mode from this column on."""
        self.spans.append(Span(self.mode, self.since, column))
        self.mode = mode
        self.since = column

    def go_to(self, depth, column):
        self.depth = depth
        self.stair.append((column, depth))

    def bar(self, why, column):
        self.bars.setdefault(why, column)

    def unbar(self, why, column):
        if why in self.bars:
            self.barred.append((why, self.bars.pop(why), column))

    def close(self, column):
        self.turn(self.mode, column)
        for why in list(self.bars):
            self.unbar(why, column)


@dataclasses.dataclass
class Call:
    """An agent's call, where it was made and where it took place."""

    agent: str
    word: str
    line: str
    column: int
    thread: str = ""
    took: int = -1
    refused: bool = False


def own_event(thread, event, line, column):
    """A thread's own event, by the line that it came to. Where the thread hands over, its waiting calls take place."""
    word = event[1]
    if line.startswith("error"):
        thread.refused.append((column, f"{word}: {line}"))
        return
    if line == "clear":
        return
    if word in ("enter", "enter_native"):
        thread.go_to(thread.depth + 1, column)
    elif word == "leave":
        thread.go_to(thread.depth - 1, column)
    elif word in ("start", "back"):
        thread.turn("running", column)
    elif word in ("native", "block", "end") or line in ("went", "held"):
        for call in thread.waiting:
            take_place(thread, call, column)
        thread.waiting = []
        if word == "end":
            thread.go_to(0, column)
        if line != "went":
            thread.turn({"native": "native", "block": "blocked", "end": "ended"}.get(word, "held"), column)


def take_place(thread, call, column):
    call.took = column
    if call.line.startswith("error"):
        return
    if call.word == "pop":
        thread.go_to(thread.depth - 1, column)
    elif call.word == "suspend":
        thread.bar("suspended", column)
    elif call.word == "resume":
        thread.unbar("suspended", column)
    elif call.word == "stop":
        thread.bar("stopped by " + call.agent, column)
    elif call.word == "go":
        thread.unbar("stopped by " + call.agent, column)


def is_refused(event, line):
    """Whether a call did not reach its thread."""
    if not line.startswith("error"):
        return False
    number = line.split()[1]
    negative = number == "103" and isinstance(event[-1], int) and event[-1] < 0
    return number in UNREACHED or negative


def agent_event(threads, names, event, line, column):
    call = Call(event[0], event[1], line, column)
    if len(event) > 2 and not isinstance(event[2], list) and event[1] != "setenv":
        at = event[2] if isinstance(event[2], str) else names[event[2]] if 0 <= event[2] < len(names) else ""
        call.thread = at
    call.refused = is_refused(event, line)
    if not call.thread or call.refused:
        return call
    thread = threads[call.thread]
    if call.word in WAITING and thread.mode == "running":
        thread.waiting.append(call)
    else:
        take_place(thread, call, column)
    return call


def follow(walk, lines):
    """The threads and the calls of a walk."""
    threads = {name: Thread(name, lane) for lane, name in enumerate(walk["threads"])}
    calls = []
    for column, (event, line) in enumerate(zip(walk["events"], lines)):
        if event[0] in threads:
            own_event(threads[event[0]], event, line, column)
        else:
            calls.append(agent_event(threads, walk["threads"], event, line, column))
    for thread in threads.values():
        thread.close(len(lines))
    return threads, calls


def cross(x, y, title):
    """A mark of what was refused."""
    return f'<path d="M{x - 6} {y - 6} L{x + 6} {y + 6} M{x - 6} {y + 6} L{x + 6} {y - 6}" stroke="{RED}" stroke-width="1.5"><title>{html.escape(title)}</title></path>'


def x_of(column):
    return LEFT + column * COLUMN


def text(x, y, what, size=12, anchor="start", more=""):
    return f'<text x="{x}" y="{y}" font-size="{size}" text-anchor="{anchor}" {more}>{html.escape(what)}</text>'


def draw_thread(thread, deepest):
    top = TOP + thread.lane * LANE
    out = [text(LEFT - 8, top + 28, thread.name, 13, "end")]
    for span in thread.spans:
        if span.last > span.first:
            colour, title = MODES[span.mode]
            width = (span.last - span.first) * COLUMN
            out.append(f'<rect x="{x_of(span.first)}" y="{top}" width="{width}" height="{STAIR + 4}" fill="{colour}"><title>{thread.name}: {title}</title></rect>')
    points, depth = [], 0
    for column, new in thread.stair:
        points += [(x_of(column), depth), (x_of(column), new)]
        depth = new
    points.append((x_of(thread.spans[-1].last), depth))
    path = " ".join(f"{x},{top + STAIR - (STAIR - 6) * depth / deepest:.1f}" for x, depth in points)
    out.append(f'<polyline points="{path}" fill="none" stroke="#444444" stroke-width="1.5"><title>{thread.name}: frames</title></polyline>')
    for column, title in thread.refused:
        out.append(cross(x_of(column) + COLUMN / 2, top + 10, f"{column} {thread.name} {title}"))
    for row, (why, first, last) in enumerate(sorted(thread.barred, key=lambda b: b[1])):
        y = top + STAIR + 8 + 4 * (row % 2)
        colour = PINK if why == "suspended" else VIOLET
        out.append(f'<line x1="{x_of(first)}" y1="{y}" x2="{x_of(last)}" y2="{y}" stroke="{colour}" stroke-width="3"><title>{thread.name}: {html.escape(why)}</title></line>')
    return out


def draw_call(call, threads, agents, bottom, end):
    x = x_of(call.column) + COLUMN / 2
    y = bottom + agents.index(call.agent) * AGENT_LANE + 16
    colour = RED if call.line.startswith("error") else BLUE
    tip = f"<title>{call.column} {html.escape(call.agent)} {call.word}: {html.escape(call.line)}</title>"
    out = [f'<circle cx="{x}" cy="{y}" r="4" fill="{colour}">{tip}</circle>', text(x, y + 15 + 9 * (call.column % 2), call.word, 9, "middle", 'fill="#555555"')]
    if call.refused:
        out.append(cross(x, y, f"{call.column} {call.agent} {call.word}: {call.line}"))
    elif call.thread:
        target = TOP + threads[call.thread].lane * LANE + STAIR + 4
        answered = call.took >= 0
        to_x = x_of(call.took if answered else end) + (COLUMN / 2 if answered else 0)
        style = 'marker-end="url(#arrow)"' if answered else 'stroke-dasharray="3 3"'
        out.append(f'<path d="M{x} {y - 5} C{x} {y - 30} {to_x} {target + 30} {to_x} {target}" fill="none" stroke="{colour}" stroke-opacity="0.7" {style}>{tip}</path>')
    return out


def frame_of(width, height, body):
    """A picture of this size."""
    head = [
        f'<svg xmlns="http://www.w3.org/2000/svg" viewBox="0 0 {width} {height}" width="{width}" height="{height}" font-family="sans-serif">',
        '<defs><marker id="arrow" viewBox="0 0 8 8" refX="7" refY="4" markerWidth="7" markerHeight="7" orient="auto"><path d="M0 0 L8 4 L0 8 z" fill="#555555"/></marker></defs>',
        f'<rect width="{width}" height="{height}" fill="#ffffff"/>',
    ]
    return "\n".join(head + body + ["</svg>"]) + "\n"


def line_mark(colour, more=""):
    return lambda x, y: f'<path d="M{x - 4} {y} L{x + 10} {y}" fill="none" stroke="{colour}" stroke-width="2" {more}/>'


def dot_mark(colour):
    return lambda x, y: f'<circle cx="{x + 3}" cy="{y}" r="4" fill="{colour}"/>'


def box_mark(colour):
    return lambda x, y: f'<rect x="{x - 3}" y="{y - 6}" width="12" height="12" fill="{colour}" stroke="#999999"/>'


MODE_MARKS = [(box_mark(colour), title) for colour, title in MODES.values()]
CALL_MARKS = [
    (dot_mark(BLUE), "a call"),
    (dot_mark(RED), "answered with an error"),
    (lambda x, y: cross(x + 3, y, "refused"), "refused"),
]
WALK_MARKS = [
    (lambda x, y: f'<path d="M{x - 4} {y} L{x + 10} {y}" stroke="{BLUE}" marker-end="url(#arrow)"/>', "where it took place"),
    (line_mark(BLUE, 'stroke-dasharray="3 3"'), "never answered"),
    (line_mark("#444444"), "frames"),
    (line_mark(PINK), "suspended"),
    (line_mark(VIOLET), "stopped"),
]
MARK = 156
LEGEND_ROW = 18


def legend(rows, top):
    """Rows of marks with their titles."""
    out = []
    for row, marks in enumerate(rows):
        y = top + row * LEGEND_ROW
        for place, (mark, title) in enumerate(marks):
            x = LEFT + MARK * place
            out += [mark(x, y - 4), text(x + 16, y, title, 11)]
    return out


def draw(walk, lines):
    threads, calls = follow(walk, lines)
    count = len(lines)
    deepest = max([depth for t in threads.values() for _, depth in t.stair] + [1])
    bottom = TOP + len(threads) * LANE + 24
    agents = walk["agents"]
    marks = [MODE_MARKS, CALL_MARKS, WALK_MARKS]
    height = bottom + len(agents) * AGENT_LANE + 32 + len(marks) * LEGEND_ROW
    width = max(x_of(count) + 24, LEFT + MARK * len(MODES))
    out = []
    for column in range(count):
        event = walk["events"][column]
        tip = f"<title>{column} {html.escape(json.dumps(event))}: {html.escape(lines[column])}</title>"
        out.append(f'<g>{text(x_of(column) + COLUMN / 2, TOP - 12, str(column), 10, "middle", GREY)}{tip}</g>')
    for thread in threads.values():
        out += draw_thread(thread, deepest)
    for row, agent in enumerate(agents):
        out.append(text(LEFT - 8, bottom + row * AGENT_LANE + 20, agent, 13, "end"))
    for call in calls:
        out += draw_call(call, threads, agents, bottom, count)
    out += legend(marks, bottom + len(agents) * AGENT_LANE + 32)
    return frame_of(width, height, out)


OPERATION = 72
LIVE_LANE = 52
CELL = 36
CALLED = "#e3edf9"
REFUSED = "#fbe4e4"
AFTER = {"start": "running", "back": "running", "native": "native", "block": "blocked", "end": "ended"}


@dataclasses.dataclass
class Cell:
    """An operation or a call in its lane."""

    colour: str
    word: str
    told: str
    crossed: bool
    tip: str


def short(what):
    return what if len(what) <= 12 else what[:10] + ".."


def live_lane(name, top, cells):
    out = [text(LEFT - 8, top + 22, name, 13, "end")]
    for number, cell in enumerate(cells):
        x = LEFT + number * OPERATION
        tip = f"{name} {number} {cell.tip}"
        out.append(f'<rect x="{x}" y="{top}" width="{OPERATION}" height="{CELL}" fill="{cell.colour}" stroke="#ffffff"><title>{html.escape(tip)}</title></rect>')
        out.append(text(x + OPERATION / 2, top + 15, short(cell.word), 10, "middle"))
        out.append(text(x + OPERATION / 2, top + 29, short(cell.told), 9, "middle", 'fill="#555555"'))
        if cell.crossed:
            out.append(cross(x + OPERATION - 9, top + 9, tip))
    return out


def thread_cells(operations, refusals):
    """A thread's operations, each with the mode that it is in after it."""
    mode, cells = "new", []
    for number, operation in enumerate(operations):
        refused = refusals.get(number, "")
        if not refused:
            mode = AFTER.get(operation[0], mode)
        cells.append(Cell(MODES[mode][0], operation[0], refused, bool(refused), f"{json.dumps(operation)}: {refused}"))
    return cells


def call_cells(calls, replies):
    cells = []
    for number, call in enumerate(calls):
        reply = replies.get(number, "")
        colour = REFUSED if reply.startswith("error") else CALLED
        cells.append(Cell(colour, call[0], reply, False, f"{json.dumps(call)}: {reply}"))
    return cells


def draw_live(script, lines):
    """The lanes of a live run, whose lines are each `NAME NUMBER TEXT`, or `NAME legal`."""
    told = {}
    for line in lines:
        name, rest = line.split(" ", 1)
        number, _, what = rest.partition(" ")
        if number.isdigit():
            told.setdefault(name, {})[int(number)] = what
    lanes = [(name, thread_cells(walk, told.get(name, {}))) for name, walk in zip(script["threads"], script["walks"])]
    lanes += [(name, call_cells(calls, told.get(name, {}))) for name, calls in zip(script["agents"], script["calls"])]
    longest = max([len(cells) for _, cells in lanes] + [1])
    bottom = TOP + len(lanes) * LIVE_LANE
    out = [text(LEFT, TOP - 16, "Each lane has its own order. Between lanes there is none.", 11, "start", GREY)]
    for row, (name, cells) in enumerate(lanes):
        out += live_lane(name, TOP + row * LIVE_LANE, cells)
    # a thread that is held in a live run goes back in the same operation
    modes = [mark for mark, name in zip(MODE_MARKS, MODES) if name != "held"]
    calls = [(box_mark(CALLED), "a call and its reply"), (box_mark(REFUSED), "a refused call"), (CALL_MARKS[-1][0], "a refused operation")]
    out += legend([modes, calls], bottom + 20)
    width = max(LEFT + longest * OPERATION + 24, LEFT + MARK * len(modes))
    return frame_of(width, bottom + 20 + 2 * LEGEND_ROW, out)


def give_up(why):
    sys.exit(f"timeline.py: {why}")


def read_document(path):
    """The document, and whether it is a live script."""
    try:
        with open(path, encoding="utf-8") as file:
            document = json.load(file)
    except OSError as error:
        give_up(f"{path}: {error.strerror}")
    except ValueError as error:
        give_up(f"{path} is no JSON: {error}")
    has = document.keys() if isinstance(document, dict) else ()
    if {"threads", "agents", "events"} <= set(has):
        return document, False
    if {"threads", "agents", "walks", "calls"} <= set(has):
        return document, True
    if "entries" in has:
        give_up(f"{path} is the history of one thread: a time line is of a walk or a live script")
    give_up(f"{path} is no walk (threads, agents, events) and no live script (threads, agents, walks, calls)")


def outcomes(lines, walk, path):
    """What the lines of a walk say behind their numbers."""
    parts = [line.split(" ", 1) for line in lines]
    if [part[0] for part in parts] != [str(number) for number in range(len(walk["events"]))] or any(len(p) < 2 for p in parts):
        give_up(f"standard input has not the lines 0 to {len(walk['events']) - 1} that `tiwalk` writes for {path}")
    return [part[1] for part in parts]


def replies(lines, script, path):
    """The lines of a live run, which end with a verdict on each thread."""
    verdicts = [f"{name} legal" for name in script["threads"]]
    if not set(verdicts) <= set(lines):
        give_up(f"standard input has not the lines that `tiwalk live` writes for {path}")
    return lines


def main():
    about, _, more = __doc__.partition("\n\n")
    parser = argparse.ArgumentParser(description=about, epilog=more, formatter_class=argparse.RawDescriptionHelpFormatter)
    parser.add_argument("document", help="a walk or a live script")
    path = parser.parse_args().document
    document, is_live = read_document(path)
    lines = sys.stdin.read().splitlines()
    if is_live:
        sys.stdout.write(draw_live(document, replies(lines, document, path)))
    else:
        sys.stdout.write(draw(document, outcomes(lines, document, path)))


main()
