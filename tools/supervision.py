"""What a link in operation needs, for tools/report: times of day, events, and a file for Prometheus. It takes the records that --json prints."""
import datetime
import math
import os
import time

CERTIFIED = ("sole", "most-likely")
# Seconds between two files for Prometheus at least.
PERIOD = 1.0
# Of the last frame.
GAUGES = {"es_n0_db": "Es/N0 in dB", "mer_db": "modulation error ratio in dB", "margin_db": "margin in dB", "bit_error_ratio": "bit error ratio before decoding"}
COUNTERS = {
    "frames": "frames with a line",
    "frames_lost": "frames that were not delivered",
    "frames_certified": "frames that are sole or most-likely",
    "gaps": "places where symbols are missing between two frames",
    "gap_symbols": "symbols that are missing there",
    "seconds_with_errors": "seconds with a lost frame or without lock",
}


def start_of(text):
    """A time: ISO 8601, UTC unless it has an offset, or now."""
    if text == "now":
        return datetime.datetime.now(datetime.timezone.utc)
    found = datetime.datetime.fromisoformat(text.removesuffix("Z") + "+00:00" * text.endswith("Z"))
    return (found if found.tzinfo else found.replace(tzinfo=datetime.timezone.utc)).astimezone(datetime.timezone.utc)


# what a refused argument is called
start_of.__name__ = "time"


class Clock:
    """The times of symbols, if the time of the first one and the symbols per second are known."""

    def __init__(self, start, rate):
        self.start, self.rate = start, rate

    def second(self, symbol):
        """The second of a symbol, counted from 0."""
        return int(symbol // self.rate)

    def text(self, symbol):
        """The time of a symbol in milliseconds; without a start nothing."""
        if not self.start:
            return ""
        found = self.start + datetime.timedelta(milliseconds=math.floor(1000 * symbol / self.rate))
        return f"{found:%Y-%m-%dT%H:%M:%S}.{found.microsecond // 1000:03}Z"


class Watch:
    """Follows a link. Its methods return events as pairs: a symbol, and a text."""

    def __init__(self, clock, limit):
        self.clock, self.limit = clock, limit
        self.is_locked = self.is_low = False
        # The symbol after which frames are missing; the last second with errors; lost and all frames of the current second.
        self.lost_at, self.bad, self.second, self.lost, self.all = None, -1, None, 0, 0
        self.counts, self.last, self.at, self.least = dict.fromkeys(COUNTERS, 0), {}, 0, math.inf

    def note(self, kind, symbol):
        """A note of the receiver: no symbols come, or no frame is found."""
        if kind == "symbols":
            return [(symbol, f"no symbols after {symbol}")]
        return self.unlock(symbol)

    def unlock(self, symbol):
        if not self.is_locked:
            return []
        self.is_locked, self.lost_at = False, symbol
        return [(symbol, "lock lost")]

    def lock(self, symbol):
        if self.is_locked:
            return []
        if self.lost_at is not None:
            self.count_seconds(self.lost_at, symbol - 1)
        self.is_locked = True
        return [(symbol, "lock found")]

    def count_seconds(self, first, last):
        """Counts the seconds of these symbols as seconds with errors, each once."""
        if self.clock:
            one, end = max(self.bad + 1, self.clock.second(first)), self.clock.second(last)
            self.counts["seconds_with_errors"] += max(0, end + 1 - one)
            self.bad = max(self.bad, end)

    def frame(self, record):
        """A frame's record."""
        at, gap, is_lost = record["at_symbol"], record.get("gap_symbols", 0), record["outcome"] == "lost"
        found = self.end_second(at) + (self.unlock(at - gap) if gap else []) + self.lock(at)
        self.at, self.last = at, {name: record[name] for name in GAUGES if name in record}
        for name, count in (("frames", 1), ("frames_lost", is_lost), ("frames_certified", record["verdict"] in CERTIFIED), ("gaps", gap > 0), ("gap_symbols", gap)):
            self.counts[name] += int(count)
        self.lost, self.all = self.lost + is_lost, self.all + 1
        if is_lost:
            self.count_seconds(at, at)
            found.append((at, f"frame {record['number']} lost"))
        return found + self.margin(at, record.get("margin_db"))

    def margin(self, at, value):
        """The event of a margin that falls below the limit, or rises to it."""
        if value is None:
            return []
        was, self.is_low, self.least = self.is_low, value < self.limit, min(self.least, value)
        if was == self.is_low:
            return []
        return [(at, f"margin {value:.2f} dB, {'below' if self.is_low else 'not below'} {self.limit:g} dB")]

    def end_second(self, at=None):
        """The event of a second that is over, if a frame of it was lost."""
        second = None if at is None or not self.clock else self.clock.second(at)
        if not self.clock or second == self.second:
            return []
        lost, of, self.lost, self.all, before, self.second = self.lost, self.all, 0, 0, self.second, second
        return [(math.ceil(before * self.clock.rate), f"second with errors: {lost} of {of} frames lost")] if lost else []

    def end(self):
        """The last events: the sums."""
        counts = self.counts
        seconds = f", seconds with errors {counts['seconds_with_errors']}" if self.clock else ""
        least = f", least margin {self.least:.2f} dB" if self.least < math.inf else ""
        return self.end_second() + [(self.at, f"end: frames {counts['frames']}, lost {counts['frames_lost']}, gaps {counts['gaps']}{seconds}{least}")]

    def line(self, symbol, text):
        """An event in words."""
        return f"{f'{self.clock.text(symbol)} ' if self.clock and self.clock.start else ''}symbol {symbol}: {text}"

    def metrics(self):
        """The text for Prometheus."""
        found = [(f"{name}_total", "counter", help_text, self.counts[name]) for name, help_text in COUNTERS.items() if name != "seconds_with_errors" or self.clock]
        found += [("lock", "gauge", "1 if the last frames follow each other, 0 if frames are missing", int(self.is_locked))]
        found += [("last_symbol", "gauge", "the first symbol of the last frame", self.at)]
        found += [(name, "gauge", f"{text}, of the last frame", self.last[name]) for name, text in GAUGES.items() if name in self.last]
        return "".join(f"# HELP s2_{name} {text}\n# TYPE s2_{name} {kind}\ns2_{name} {value}\n" for name, kind, text, value in found)


class MetricsFile:
    """The file for Prometheus. It is replaced as a whole, at most once a second, and at the end."""

    def __init__(self, path):
        self.path, self.written = path, -math.inf
        self.part = os.path.join(os.path.dirname(os.path.realpath(path)), f".{os.path.basename(path)}.{os.getpid()}")

    def write(self, watch, is_last=False):
        if is_last or time.monotonic() >= self.written + PERIOD:
            with open(self.part, "w", encoding="ascii") as file:
                file.write(watch.metrics())
            os.replace(self.part, os.path.realpath(self.path))
            self.written = time.monotonic()
