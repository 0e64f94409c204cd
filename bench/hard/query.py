"""The time of one query of rustc, from the profile that it writes of itself.

A profile has three kinds of pages: events, texts, and the index that tells where the text of an event's name begins.
An event of a query has the number of its name, and the nanoseconds at which it began and ended.
"""
import glob
import os
import struct
import tempfile
import time

from limits import rustc

EVENTS, TEXTS, INDEX = 0, 1, 2
HEADER = 8
END_OF_TEXT = b"\xff"


def pages_of(data):
    """The bytes of each kind of page."""
    pages, at = {}, HEADER
    while at + 5 <= len(data):
        kind, length = struct.unpack_from("<BI", data, at)
        at += 5
        pages[kind] = pages.get(kind, b"") + data[at:at + length]
        at += length
    return pages


def numbers_of(pages, name):
    """The numbers of the events with this name."""
    texts, numbers = pages[TEXTS], set()
    for number, at in struct.iter_unpack("<QQ", pages[INDEX][HEADER:]):
        if texts[at:texts.find(END_OF_TEXT, at)] == name:
            numbers.add(number)
    return numbers


def events_of(pages):
    """The events: thread, beginning, end and number of each, the outer ones first."""
    events = []
    for _, number, thread, begin, end, high in struct.iter_unpack("<QQIIII", pages[EVENTS][HEADER:]):
        events.append((thread, begin | high >> 16 << 32, -(end | (high & 0xFFFF) << 32), number))
    return [(thread, begin, -end, number) for thread, begin, end, number in sorted(events)]


def own_time(pages, name):
    """The nanoseconds in all events of this name, without those of the events within them."""
    wanted, spent, outer, inner = numbers_of(pages, name), 0, None, 0
    for thread, begin, end, number in events_of(pages):
        if outer and thread == outer[0] and end <= outer[1]:
            if begin >= inner:
                spent, inner = spent - (end - begin), end
        elif number in wanted:
            spent, outer, inner = spent + end - begin, (thread, end), 0
    return spent


def check_match(source, seconds, folder):
    """The seconds of rustc's query `check_match` without the queries that it asks for, or None.

    The profile tells the clock's time. The share of the processor that the whole run had makes it processor time.
    """
    with tempfile.TemporaryDirectory(dir=folder) as profiles:
        began = time.monotonic()
        words = ["-Zself-profile=" + profiles, "-Zself-profile-events=query-provider"]
        run = rustc(source, seconds, folder, *words)
        share = min(run.seconds / (time.monotonic() - began), 1.0)
        paths = glob.glob(os.path.join(profiles, "*.mm_profdata"))
        if not run.answered() or not paths:
            return None
        with open(paths[0], "rb") as file:
            return share * own_time(pages_of(file.read()), b"check_match") / 1e9
