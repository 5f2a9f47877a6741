#!/usr/bin/env python3
"""Makes the traces that comparisons and measurements need, of a recording's header and events.

    scripts/make_trace.py events IN.dat OUT.dat switch|function|graph N    one processor with N events of one kind
    scripts/make_trace.py task IN.dat OUT.dat PID [--name NAME]            IN.dat with all its events of one task
    scripts/make_trace.py processors IN.dat OUT.dat PROCESSORS BYTES       IN.dat's sub-buffers dealt out to processors
    scripts/make_trace.py files IN.dat OUT FILES PROCESSORS                IN.dat's events dealt out to several files
    scripts/make_trace.py calls IN.dat OUT.dat N [--seed SEED]             N entries and exits of functions, with losses
    scripts/make_trace.py sub-buffers IN.dat OUT.dat SIZE [--page PAGE]    IN.dat packed anew into sub-buffers of SIZE bytes
    scripts/make_trace.py idle IN.dat OUT.dat PROCESSORS                   IN.dat beside processors without any data
    scripts/make_trace.py formats IN.dat OUT.dat N                         N formats, those of IN.dat first, and no events
    scripts/make_trace.py parts IN.dat DIRECTORY                           what `restore` makes a trace of

IN.dat is a recording of version 6 of a little-endian kernel of 64 bits; `parts` takes any byte order. `COMMAND --help` says more.
"""

from __future__ import annotations

import argparse
import random
import re
import struct
import sys
from pathlib import Path
from typing import Callable, Iterable, Sequence

from tracefile import (
    COUNTED, DATA_AT, COMMITTED, MISSED, PAGE, STAMP, Event, Packer, Trace, events_of, formats_of, packed, payload, read_plain_trace, read_trace,
    records_of, text, u32, u64, write_trace,
)

# Events of one kind


def switches(trace: Trace, events: list[Event]) -> list[Event]:
    return events


def functions(trace: Trace, events: list[Event]) -> list[Event]:
    """In the places of these events, ftrace's `function` events, whose two addresses stand after symbols of the recording."""
    identity, symbols = trace.ids()["function"], trace.symbols()

    def function(i: int, event: Event) -> Event:
        at, parent = symbols[i * 7919 % len(symbols)] + 5, symbols[i * 104729 % len(symbols)] + 9
        return Event(event.time, struct.pack("<HBB", identity, 1, 0) + event.payload[4:8] + u64(at) + u64(parent))

    return [function(i, event) for i, event in enumerate(events)]


def graph(trace: Trace, events: list[Event]) -> list[Event]:
    """In the places of these events, by fours an entry, a leaf's entry and exit, and the exit of the first."""
    ids, symbols = trace.ids(), trace.symbols()

    def call(i: int, event: Event) -> Event:
        part = i % 4
        function, depth = symbols[(i - (part == 2) - 3 * (part == 3)) * 7919 % len(symbols)], int(part in (1, 2))
        pid = struct.unpack_from("<i", events[i - part].payload, 4)[0]
        if part < 2:
            return Event(event.time, payload(ids["funcgraph_entry"], pid, struct.pack("<Qi", function, depth)))
        began = events[i - (1 if part == 2 else 3)].time
        return Event(event.time, payload(ids["funcgraph_exit"], pid, struct.pack("<QiIQQ", function, depth, 0, began, event.time)))

    return [call(i, event) for i, event in enumerate(events[: len(events) // 4 * 4])]


KINDS: dict[str, Callable[[Trace, list[Event]], list[Event]]] = {"switch": switches, "function": functions, "graph": graph}


def one_kind(source: Path, target: Path, kind: str, count: int) -> None:
    """A trace of one processor with so many events of one kind.

    `switch` repeats the sched_switch events of IN.dat, which has some; `function` has in their places events of the function tracer,
    whose addresses stand after symbols of the recording; `graph` entries and exits of the function graph, half of them leafs'. Two
    traces of different lengths give the cost of one event.
    """
    trace = read_plain_trace(source)
    identity = struct.pack("<H", trace.ids()["sched_switch"])
    events = sorted(event for lane in trace.events() for event in lane if event.payload[:2] == identity)
    events = KINDS[kind](trace, events)
    span = events[-1].time - events[0].time + 1000
    turns = range(count // len(events) + 1)
    repeated = [Event(event.time + turn * span, event.payload) for turn in turns for event in events][:count]
    write_trace(target, trace.head, [packed(repeated)], trace.tail)


def of_task(source: Path, target: Path, pid: int, name: str = "") -> None:
    """A recording with all its events of one task, whose name is saved if it has one."""
    trace = read_plain_trace(source)
    lanes = [
        [Event(event.time, event.payload[:4] + struct.pack("<i", pid) + event.payload[8:]) for event in lane] for lane in trace.events()
    ]
    names = trace.file[trace.nameless + 8 : trace.named] + (f"{pid} {name}\n".encode() if name else b"")
    write_trace(target, trace.file[: trace.nameless] + text(8, names), [packed(lane) for lane in lanes], trace.tail)


# Dealing out


def span_of(page: bytes) -> int | None:
    """How long the events of a sub-buffer take. None where it has no event, or a record with a time of its own."""
    commit = struct.unpack_from("<Q", page, 8)[0] & COMMITTED
    if DATA_AT + commit > len(page) or any(record.kind == STAMP for record in records_of(page)):
        return None
    times = [event.time for event in events_of(page)]
    return times[-1] - begin_of(page) if times else None


def begin_of(page: bytes) -> int:
    return int.from_bytes(page[:8], "little")


def sub_buffers_with_spans(trace: Trace) -> list[tuple[bytes, int]]:
    """The recording's sub-buffers with events, each with how long they take, in the order of their times."""
    pages = sorted((page for lane in trace.sub_buffers() for page in lane), key=begin_of)
    return [(page, span) for page, span in ((page, span_of(page)) for page in pages) if span is not None]


def dealt(pages: Sequence[tuple[bytes, int]], cpus: int, size: int) -> list[bytes]:
    """The sub-buffers of each processor, with their times: so many bytes in all, and at least one sub-buffer a processor."""
    lanes: list[list[bytes]] = [[] for _ in range(cpus)]
    clocks = [1_000_000_000 + 137 * cpu for cpu in range(cpus)]
    for number in range(max(size // len(pages[0][0]), cpus)):
        cpu = number % cpus
        page, span = pages[number % len(pages)]
        lanes[cpu].append(u64(clocks[cpu]) + page[8:])
        clocks[cpu] += span + 1000
    return [b"".join(lane) for lane in lanes]


def deal_to_processors(source: Path, target: Path, processors: int, size: int, busy: int | None = None) -> None:
    """A trace of many processors: the sub-buffers of a recording, dealt out and repeated.

    The sub-buffers of IN.dat with events, in the order of their times, are dealt out in turn, as often as it takes until there are
    BYTES of them, and at least one a processor. Those of one processor follow each other in time as they lie: each begins a
    microsecond after the last event before it, so that all processors go on at like rates. Sub-buffers whose events have times of
    their own are left out. With --busy the first few processors have these, and the others one sub-buffer each.
    """
    trace = read_plain_trace(source)
    pages = sub_buffers_with_spans(trace)
    busy = processors if busy is None else busy
    lanes = dealt(pages, busy, size)
    if busy < processors:
        lanes += dealt(pages, processors - busy, 0)
    write_trace(target, trace.head, lanes, trace.tail)


def deal_to_files(source: Path, base: str, files: int, processors: int) -> None:
    """The events of a trace dealt out to several traces, for counting what a line costs in a report of several files.

    IN.dat is a trace of one processor. Its events are dealt out in turn, with their times, to FILES traces of PROCESSORS processors
    each: OUT-1.dat, OUT-2.dat and so on, all with the header of IN.dat. So the report of one file of four processors and those of two
    files of two and of four files of one have the same lines in the same order, but for the columns of names and processors.
    """
    trace = read_plain_trace(source)
    if len(trace.parts) != 1:
        sys.exit(f"{source}: more than one processor")
    (events,) = trace.events()
    lanes = [packed(events[turn :: files * processors]) for turn in range(files * processors)]
    for number in range(files):
        write_trace(f"{base}-{number + 1}.dat", trace.head, lanes[number::files], trace.tail)


def add_idle(source: Path, target: Path, processors: int) -> None:
    """A recording as of a larger machine: its own processors, and others without any data, PROCESSORS in all."""
    trace = read_plain_trace(source)
    lanes = trace.data()
    write_trace(target, trace.head, lanes + [b""] * (processors - len(lanes)), trace.tail)


# Formats


def add_formats(source: Path, target: Path, count: int) -> None:
    """A trace without events, whose header has N formats: those of IN.dat, and after them the same again, of other names and numbers.

    IN.dat may also be the file of a latency tracer, whose header has the formats of a whole kernel.
    """
    before, ftrace, systems, names = formats_of(source)
    texts = [text for _, texts in systems for text in texts]
    free = 1 + max(int(number) for number in re.findall(rb"\nID: (\d+)\n", b"".join(ftrace + texts)))
    count -= len(ftrace) + len(texts)
    more = [as_another(texts[i % len(texts)], free + i) for i in range(max(count, 0))]
    head = before + counted_texts(ftrace) + u32(len(systems) + 1)
    head += b"".join(name + b"\0" + counted_texts(texts) for name, texts in [*systems, (b"more", more)])
    write_trace(target, head + names, [b""])


def as_another(description: bytes, number: int) -> bytes:
    """A format under another name and number."""
    description = re.sub(rb"^name: (\w+)", rb"name: \1_%d" % number, description, count=1)
    return re.sub(rb"\nID: \d+\n", b"\nID: %d\n" % number, description, count=1)


def counted_texts(texts: Sequence[bytes]) -> bytes:
    return u32(len(texts)) + b"".join(text(8, it) for it in texts)


# Calls


class Thread:
    """A thread that calls and returns; it is open in several calls already when the recording begins."""

    def __init__(self, chance: random.Random, symbols: Sequence[int], pid: int):
        self.pid, self.symbols = pid, symbols
        self.opens = [(chance.choice(symbols), 0) for _ in range(chance.randrange(4))]

    def enters(self, chance: random.Random) -> bool:
        return len(self.opens) < 1 or len(self.opens) < 60 and chance.random() < 0.5

    def next(self, chance: random.Random, ids: dict[str, int], time: int) -> Event:
        """An entry or an exit at this time."""
        if self.enters(chance):
            function = chance.choice(self.symbols)
            self.opens.append((function, time + chance.randrange(40)))
            return Event(time, payload(ids["funcgraph_entry"], self.pid, struct.pack("<Qi", function, len(self.opens) - 1)))
        function, began = self.opens.pop()
        ended = max(time - chance.randrange(40), began)
        return Event(time, payload(ids["funcgraph_exit"], self.pid, struct.pack("<QiIQQ", function, len(self.opens), 0, began, ended)))


TASKS = (1, 2, 17, 93, 94, 1200)


def calls_of_two(chance: random.Random, ids: dict[str, int], symbols: Sequence[int], count: int) -> list[list[Event | None]]:
    """The events of two processors; None where some were left out."""
    idle = [Thread(chance, symbols, 0), Thread(chance, symbols, 0)]
    tasks = [Thread(chance, symbols, pid) for pid in TASKS]
    runs, time, lost = list(idle), 10**12, [0, 0]
    cpus: list[list[Event | None]] = [[], []]
    for _ in range(count):
        cpu = chance.randrange(2)
        if chance.random() < 0.05:
            runs[cpu] = chance.choice([thread for thread in tasks if thread is not runs[1 - cpu]] + [idle[cpu]])
        time += chance.choice((60, 150, 900, 12_345, 1_500_000)) if chance.random() < 0.1 else chance.randrange(50, 400)
        event = runs[cpu].next(chance, ids, time)
        if lost[cpu] == 0 and chance.random() < 0.002:
            lost[cpu] = chance.randrange(1, 41)
            cpus[cpu].append(None)
        if lost[cpu]:
            lost[cpu] -= 1
        else:
            cpus[cpu].append(event)
    return cpus


def packed_with_losses(events: Iterable[Event | None]) -> bytes:
    packer = Packer()
    for event in events:
        if event:
            packer.add(event)
        elif packer.done or packer.data:
            packer.lose()
    return packer.all()


def make_calls(source: Path, target: Path, count: int, seed: int) -> None:
    """A made-up recording of the function graph: threads of two processors that call and return, with losses.

    N events are made, entries and exits; threads are open in several calls already when the recording begins, so that some exits stand
    alone, and at a loss up to 40 events of one processor are left out. It is for `scripts/compare.py calls`.
    """
    trace = read_plain_trace(source)
    cpus = calls_of_two(random.Random(seed), trace.ids(), trace.symbols(), count)
    write_trace(target, trace.head, [packed_with_losses(events) for events in cpus], trace.tail)


# Sub-buffers of another size


def repacked(pages: Iterable[bytes], size: int) -> bytes:
    packer = Packer(size)
    for page in pages:
        start, commit = struct.unpack_from("<QQ", page)
        if commit & MISSED:
            end = DATA_AT + (commit & COMMITTED)
            packer.lose(page[end : end + 8] if commit & COUNTED else None, start)
        for event in events_of(page):
            packer.add(event)
    return packer.all()


def with_sizes(head: bytes, size: int, page: int) -> bytes:
    """The header with another size of the data in its header_page text, and of the page."""
    at = head.index(b"header_page\0") + 12
    length = struct.unpack_from("<Q", head, at)[0]
    described, rest = head[at + 8 : at + 8 + length], head[at + 8 + length :]
    described = re.sub(rb"(field: char data;\toffset:16;\tsize:)\d+;", rb"\g<1>%d;" % (size - DATA_AT), described)
    return head[:14] + u32(page) + head[18:at] + text(8, described) + rest


def repack(source: Path, target: Path, size: int, page: int) -> None:
    """A recording whose sub-buffers have several pages, as Linux 6.8 and later make them (buffer_subbuf_size_kb).

    The events and losses of each processor of IN.dat are packed anew into sub-buffers of SIZE bytes, and the header_page text says so.
    The machine's page has PAGE bytes; trace-cmd 3.1.6 reads the file where it is SIZE, else it ends with `failed to init data`. The
    report of OUT.dat is that of IN.dat.
    """
    trace = read_plain_trace(source)
    lanes = [repacked(pages, size) for pages in trace.sub_buffers()]
    write_trace(target, with_sizes(trace.head, size, page), lanes, trace.tail, page)


# Parts for a restore


def take_apart(source: Path, directory: Path) -> tuple[list[Path], list[Path]]:
    """A recording taken apart into what `restore` makes one of.

    The data of each processor become DIRECTORY/cpu0, DIRECTORY/cpu1, .., and there are two partial files: DIRECTORY/nameless.dat, which
    is the header up to the printk formats, and DIRECTORY/partial.dat, which has the command lines too.
    """
    trace = read_trace(source)
    directory.mkdir(parents=True, exist_ok=True)
    partials = [directory / "nameless.dat", directory / "partial.dat"]
    for partial, end in zip(partials, (trace.nameless, trace.named)):
        partial.write_bytes(trace.file[:end])
    raw = [directory / f"cpu{cpu}" for cpu in range(len(trace.parts))]
    for name, data in zip(raw, trace.data()):
        name.write_bytes(data)
    print(f"{len(raw)} processors; partial files of {trace.nameless} and {trace.named} bytes")
    return partials, raw


def commands() -> argparse.ArgumentParser:
    parser = argparse.ArgumentParser(description=__doc__, formatter_class=argparse.RawDescriptionHelpFormatter)
    several = parser.add_subparsers(dest="command", required=True, metavar="COMMAND")

    def command(name: str, does: Callable[..., object], *words: str) -> argparse.ArgumentParser:
        brief = (does.__doc__ or "").splitlines()[0]
        it = several.add_parser(name, help=brief, description=does.__doc__, formatter_class=argparse.RawDescriptionHelpFormatter)
        it.set_defaults(does=does)
        it.add_argument("source", type=Path, metavar="IN.dat")
        for word in words:
            it.add_argument(word, type=Path if word == "target" else int, metavar="OUT.dat" if word == "target" else word.upper())
        return it

    kinds = command("events", one_kind, "target")
    kinds.add_argument("kind", choices=KINDS)
    kinds.add_argument("count", type=int, metavar="N")
    command("task", of_task, "target", "pid").add_argument("--name", default="")
    lanes = command("processors", deal_to_processors, "target", "processors", "size")
    lanes.add_argument("--busy", type=int, help="how many processors have nearly all sub-buffers")
    files = command("files", deal_to_files)
    files.add_argument("base", metavar="OUT")
    files.add_argument("files", type=int, metavar="FILES")
    files.add_argument("processors", type=int, metavar="PROCESSORS")
    calls = command("calls", make_calls, "target", "count")
    calls.add_argument("--seed", type=int, default=1)
    large = command("sub-buffers", repack, "target", "size")
    large.add_argument("--page", type=int, default=PAGE, help="the machine's page (%(default)s bytes)")
    command("idle", add_idle, "target", "processors")
    command("formats", add_formats, "target", "count")
    command("parts", take_apart).add_argument("directory", type=Path, metavar="DIRECTORY")
    return parser


def main() -> None:
    options = vars(commands().parse_args())
    does = options.pop("does")
    options.pop("command")
    does(**options)


if __name__ == "__main__":
    main()
