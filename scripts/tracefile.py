"""Reads and writes trace.dat files of version 6: what the scripts of this folder share.

A file is a header (descriptions of the kernel's formats, symbols and tasks), the number of processors, options, and a table with the
place and the size of each processor's data. The data are sub-buffers: a time, the number of the bytes that are used, and records.
"""

from __future__ import annotations

import re
import struct
import sys
from dataclasses import dataclass
from pathlib import Path
from typing import Iterable, Iterator, Literal, Mapping, NamedTuple, Sequence

MAGIC = b"\x17\x08\x44tracing6\0"
OPTIONS, FLYRECORD = b"options  \0", b"flyrecord\0"
PAGE = 4096
# Of a kernel of 64 bits: where a sub-buffer's records begin, and the bits of its second word.
DATA_AT = 16
COMMITTED, MISSED, COUNTED = 0xFFFFF, 1 << 31, 1 << 30
# The kinds of a record that are no event's length in words.
PADDING, EXTEND, STAMP = 29, 30, 31
LONGEST_IN_WORDS = 28


class Event(NamedTuple):
    """An event: its time in nanoseconds, and its payload."""

    time: int
    payload: bytes


class Part(NamedTuple):
    """Where the data of a processor stand."""

    offset: int
    size: int


class Reader:
    """The items of a header, one after another. A file that is none ends the script."""

    def __init__(self, file: bytes):
        self.file, self.at = file, 0
        self.order: Literal["little", "big"] = "little"

    def word(self, word: bytes) -> None:
        if not self.stands(word):
            sys.exit(f"no {word!r} at byte {self.at}")
        self.at += len(word)

    def stands(self, word: bytes) -> bool:
        return self.file.startswith(word, self.at)

    def number(self, width: int) -> int:
        start, self.at = self.at, self.at + width
        return int.from_bytes(self.file[start : self.at], self.order)

    def text(self, width: int) -> bytes:
        """A text after its size."""
        size = self.number(width)
        start, self.at = self.at, self.at + size
        return self.file[start : self.at]

    def name(self) -> bytes:
        start, self.at = self.at, self.file.index(b"\0", self.at) + 1
        return self.file[start : self.at - 1]

    def formats(self) -> list[bytes]:
        return [self.text(8) for _ in range(self.number(4))]

    def formats_of_systems(self) -> list[tuple[bytes, list[bytes]]]:
        return [(self.name(), self.formats()) for _ in range(self.number(4))]


@dataclass(frozen=True)
class Trace:
    """A recording of version 6 with the data of its processors."""

    file: bytes
    order: str
    long: int
    sub_buffer: int
    """How many bytes a sub-buffer has."""
    nameless: int
    """Where the printk formats end, and the names of tasks begin."""
    named: int
    """Where the names of tasks end, and the number of processors stands."""
    table: int
    """Where the table of the processors' data begins."""
    parts: list[Part]

    @property
    def head(self) -> bytes:
        """What stands before the number of processors."""
        return self.file[: self.named]

    @property
    def tail(self) -> bytes:
        """What stands between the number of processors and the table: the options, and the word that begins it."""
        return self.file[self.named + 4 : self.table]

    def data(self) -> list[bytes]:
        """The data of each processor."""
        return [self.file[offset : offset + size] for offset, size in self.parts]

    def sub_buffers(self) -> list[list[bytes]]:
        """The sub-buffers of each processor."""
        size = self.sub_buffer
        return [[data[at : at + size] for at in range(0, len(data), size)] for data in self.data()]

    def events(self) -> list[list[Event]]:
        """The events of each processor."""
        return [[event for page in pages for event in events_of(page)] for pages in self.sub_buffers()]

    def ids(self) -> dict[str, int]:
        """The number of each format's events, by its name."""
        return {name.decode(): int(number) for name, number in re.findall(rb"name: (\w+)\nID: (\d+)\n", self.head)}

    def symbols(self) -> list[int]:
        """The addresses of the kernel's functions."""
        return [int(address, 16) for address in re.findall(rb"\n([0-9a-f]{16}) [tT] ", self.head)]


def begin(reader: Reader) -> tuple[int, int, bytes]:
    """Reads what stands before the formats: the kernel's long, the machine's page, and the text of header_page."""
    reader.word(MAGIC)
    reader.order = "big" if reader.number(1) else "little"
    long, page = reader.number(1), reader.number(4)
    reader.word(b"header_page\0")
    page_text = reader.text(8)
    reader.word(b"header_event\0")
    reader.text(8)
    return long, page, page_text


def formats_of(path: str | Path) -> tuple[bytes, list[bytes], list[tuple[bytes, list[bytes]]], bytes]:
    """What stands before a header's formats, those of ftrace, those of the other systems, and the symbols, printk formats and tasks."""
    file = Path(path).read_bytes()
    reader = Reader(file)
    begin(reader)
    before = file[: reader.at]
    ftrace, systems = reader.formats(), reader.formats_of_systems()
    names = reader.at
    for width in (4, 4, 8):
        reader.text(width)
    return before, ftrace, systems, file[names : reader.at]


def read_trace(path: str | Path) -> Trace:
    """A recording of any byte order."""
    file = Path(path).read_bytes()
    reader = Reader(file)
    long, page, page_text = begin(reader)
    data = re.search(rb"field: char data;\toffset:(\d+);\tsize:(\d+);", page_text)
    reader.formats()
    reader.formats_of_systems()
    reader.text(4)
    reader.text(4)
    nameless = reader.at
    reader.text(8)
    named = reader.at
    cpus = reader.number(4)
    if reader.stands(OPTIONS):
        reader.word(OPTIONS)
        while reader.number(2):
            reader.text(4)
    reader.word(FLYRECORD)
    table = reader.at
    parts = [Part(reader.number(8), reader.number(8)) for _ in range(cpus)]
    sub_buffer = int(data[1]) + int(data[2]) if data else page
    return Trace(file, reader.order, long, sub_buffer, nameless, named, table, parts)


def read_plain_trace(path: str | Path) -> Trace:
    """A recording whose sub-buffers can be taken apart here: a little-endian one of a kernel of 64 bits."""
    trace = read_trace(path)
    if (trace.order, trace.long) != ("little", 8):
        sys.exit(f"{path}: not little-endian, or not of a kernel of 64 bits")
    return trace


def write_trace(path: str | Path, head: bytes, lanes: Sequence[bytes], tail: bytes = FLYRECORD, page: int = PAGE) -> None:
    Path(path).write_bytes(trace_file(head, lanes, tail, page))


def trace_file(head: bytes, lanes: Sequence[bytes], tail: bytes = FLYRECORD, page: int = PAGE) -> bytes:
    """A little-endian file with this header and the data of each processor, each from a multiple of the page on."""
    head += u32(len(lanes)) + tail
    begins = at = rounded(len(head) + 16 * len(lanes), page)
    table = []
    for lane in lanes:
        table.append(u64(at) + u64(len(lane)))
        at = rounded(at + len(lane), page)
    return (head + b"".join(table)).ljust(begins, b"\0") + b"".join(lane.ljust(rounded(len(lane), page), b"\0") for lane in lanes)


def rounded(size: int, page: int) -> int:
    return -(-size // page) * page


def u32(number: int) -> bytes:
    return struct.pack("<I", number)


def u64(number: int) -> bytes:
    return struct.pack("<Q", number)


def text(width: int, content: bytes) -> bytes:
    """A text after its size, a little-endian number of so many bytes."""
    return len(content).to_bytes(width, "little") + content


def header(
    ftrace: Sequence[bytes] = (),
    systems: Mapping[bytes, Sequence[bytes]] | None = None,
    symbols: bytes = b"",
    printk: bytes = b"",
    tasks: bytes = b"",
    page: int = PAGE,
) -> bytes:
    """A little-endian header of a kernel of 64 bits, with these texts of formats."""

    def formats(texts: Sequence[bytes]) -> bytes:
        return u32(len(texts)) + b"".join(text(8, it) for it in texts)

    head = MAGIC + b"\0\x08" + u32(page) + b"header_page\0" + text(8, b"") + b"header_event\0" + text(8, b"")
    named = (systems or {}).items()
    head += formats(ftrace) + u32(len(named)) + b"".join(name + b"\0" + formats(texts) for name, texts in named)
    return head + text(4, symbols) + text(4, printk) + text(8, tasks)


def options(*entries: tuple[int, bytes]) -> bytes:
    """Options by their numbers, as they stand before the table."""
    return OPTIONS + b"".join(struct.pack("<H", number) + text(4, content) for number, content in entries) + b"\0\0"


def payload(identity: int, pid: int, rest: bytes = b"") -> bytes:
    """An event's payload: its common fields, and what follows them."""
    return struct.pack("<HBBi", identity, 0, 0, pid) + rest


def record(content: bytes, delta: int = 0) -> bytes:
    """An event as it stands in a sub-buffer, so many nanoseconds after the one before it."""
    extend = b""
    if delta >= 1 << 27:
        extend, delta = struct.pack("<II", EXTEND | (delta & 0x7FFFFFF) << 5, delta >> 27), 0
    if content and len(content) % 4 == 0 and len(content) <= 4 * LONGEST_IN_WORDS:
        return extend + u32(len(content) // 4 | delta << 5) + content
    return extend + struct.pack("<II", delta << 5, len(content) + 4) + content + b"\0" * (-len(content) % 4)


def sub_buffer(time: int, data: bytes, size: int = PAGE) -> bytes:
    """A sub-buffer of these records, which begins at this time."""
    return (u64(time) + u64(len(data)) + data).ljust(size, b"\0")


class Record(NamedTuple):
    """A record of a sub-buffer: its kind, its time, and of an event its payload."""

    kind: int
    time: int
    payload: bytes


def records_of(page: bytes) -> Iterator[Record]:
    """The records of a sub-buffer up to its end."""
    time, commit = struct.unpack_from("<QQ", page)
    at, end = DATA_AT, min(DATA_AT + (commit & COMMITTED), len(page))
    while at < end:
        word = struct.unpack_from("<I", page, at)[0]
        kind, delta, at = word & 31, word >> 5, at + 4
        if kind == PADDING and delta == 0:
            return
        if kind == PADDING:
            at += struct.unpack_from("<I", page, at)[0]
            yield Record(kind, time, b"")
        elif kind in (EXTEND, STAMP):
            whole = delta + (struct.unpack_from("<I", page, at)[0] << 27)
            time, at = whole if kind == STAMP else time + whole, at + 4
            yield Record(kind, time, b"")
        else:
            time += delta
            first, size = (at, 4 * kind) if kind else (at + 4, struct.unpack_from("<I", page, at)[0] - 4)
            at = first + size
            yield Record(kind, time, page[first:at])


def events_of(page: bytes) -> Iterator[Event]:
    """The events of a sub-buffer."""
    return (Event(time, content) for kind, time, content in records_of(page) if kind not in (PADDING, EXTEND, STAMP))


class Packer:
    """Sub-buffers of one processor, filled with events one after another."""

    def __init__(self, size: int = PAGE):
        self.size = size
        self.done: list[bytes] = []
        self.begin(None)

    def begin(self, start: int | None, flags: int = 0, count: bytes = b"") -> None:
        self.start, self.last, self.data, self.flags, self.count = start, start or 0, b"", flags, count

    def close(self) -> None:
        if self.start is not None:
            word = u64(len(self.data) | self.flags)
            self.done.append((u64(self.start) + word + self.data + self.count).ljust(self.size, b"\0"))
        self.begin(None)

    def lose(self, count: bytes | None = None, start: int | None = None) -> None:
        """Events were lost before the next one, where it is told how many: a sub-buffer alone tells that, at its front."""
        self.close()
        self.begin(start, MISSED | (0 if count is None else COUNTED), count or b"")

    def fits(self, event: Event) -> bool:
        used = len(self.data) + len(record(event.payload, event.time - self.last)) + len(self.count)
        return event.time >= self.last and used <= self.size - DATA_AT

    def add(self, event: Event) -> None:
        if self.start is not None and not self.fits(event):
            self.close()
        if self.start is None:
            self.start = self.last = event.time
        self.data += record(event.payload, event.time - self.last)
        self.last = event.time

    def all(self) -> bytes:
        self.close()
        return b"".join(self.done)


def packed(events: Iterable[Event], size: int = PAGE) -> bytes:
    """The sub-buffers of these events."""
    packer = Packer(size)
    for event in events:
        packer.add(event)
    return packer.all()
