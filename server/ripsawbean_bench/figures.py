"""What is measured, and words for a table."""

import dataclasses
import os

TICK = os.sysconf("SC_CLK_TCK")


@dataclasses.dataclass(frozen=True)
class Found:
    """What one run has found: rows a second, milliseconds, microseconds of the server's processor a row."""

    rate: float | None = None
    p50: float | None = None
    p99: float | None = None
    processor: float | None = None
    before: float | None = None  # rows a second with the values before
    rows: int = 0
    journal: float | None = None  # bytes that the server has written to its journal for each row

    def told_rate(self) -> str:
        return "-" if self.rate is None else "{:,.0f}".format(self.rate)

    def told_latency(self) -> str:
        return "-" if self.p50 is None or self.p99 is None else "%.2f, %.1f" % (self.p50, self.p99)

    def told_processor(self) -> str:
        return "-" if self.processor is None else "%.1f" % self.processor

    def told_journal(self) -> str:
        return "-" if self.journal is None else "%.0f" % self.journal


NOTHING = Found()


def quantile(values: list[float], share: float) -> float:
    ordered = sorted(values)
    return ordered[min(int(len(ordered) * share), len(ordered) - 1)]


def latencies_of(seconds: list[float]) -> Found:
    return Found(p50=quantile(seconds, 0.5) * 1e3, p99=quantile(seconds, 0.99) * 1e3)


def processor_seconds(process: int) -> float:
    """Seconds of the processor that a process has used."""
    with open("/proc/%d/stat" % process) as words:
        found = words.read().rpartition(")")[2].split()
    return (int(found[11]) + int(found[12])) / TICK
