"""The figures of the rows, as a table in Markdown."""

import collections
import datetime
import os
import pathlib
import re
import statistics

HOST = "tbhost"
# What no host can be faster than: no peers.
LOOP, BARE = "the device calls alone", "a bare server"
Measure = collections.namedtuple("Measure", "title unit is_less_better")
PROCESSOR = Measure("processor time", "s", True)
CLOCK = Measure("time by the clock", "s", True)
MEMORY = Measure("peak memory", "bytes each", True)
SPEED = Measure("speed", "a second", False)
MEDIAN = Measure("median wait", "ms", True)
LATE = Measure("99th percentile of the waits", "ms", True)

BEGIN, END = "<!-- bench/peers begins -->\n", "<!-- bench/peers ends -->\n"


class Figures:
    """What was measured: by work and measure, then by program, then by size."""

    def __init__(self):
        self.lines = {}

    def add(self, work, program, size, measured):
        for measure, value in measured.items():
            sizes = self.lines.setdefault((work, measure), {}).setdefault(program, {})
            sizes.setdefault(size, []).append(value)

    def medians(self):
        """The works and measures with their programs, the host's first, each with its medians by size."""
        for key, programs in self.lines.items():
            yield key, {name: {size: statistics.median(values) for size, values in sizes.items()}
                        for name, sizes in sorted(programs.items(), key=lambda it: not it[0].startswith(HOST))}


def told(value):
    if value >= 1000:
        return f"{value:,.0f}"
    return f"{value:.{2 if value >= 10 else 3 if value >= 0.1 else 4}f}" if value < 100 else f"{value:.0f}"


def beside(host, peer):
    """The peer's value over the host's, at the largest size that both have."""
    sizes = [size for size in host if size in peer and host[size] > 0]
    return peer[max(sizes)] / host[max(sizes)] if sizes else None


def is_ahead(measure, ratio):
    return ratio is not None and (ratio < 0.995 if measure.is_less_better else ratio > 1.005)


def growth(values):
    """How many times more at the largest size than at the one before."""
    sizes = sorted(values)
    return f"{values[sizes[-1]] / values[sizes[-2]]:.1f}" if len(sizes) > 1 and values[sizes[-2]] > 0 else ""


def machine(load):
    model = re.search(r"model name\s*: (.*)", pathlib.Path("/proc/cpuinfo").read_text())
    memory = int(re.search(r"MemTotal:\s*(\d+)", pathlib.Path("/proc/meminfo").read_text())[1]) / 2**20
    state = "idle" if load < 0.5 else "busy with other programs"
    return (f"{os.cpu_count()} processors ({model[1] if model else 'unknown'}), {memory:.0f} GiB of memory, {state} "
            f"(a load of {load:.1f} before the first run)")


def written(figures, sizes, times, load, program, left_out):
    lines = [f"On {datetime.date.today()}, medians of {times}, of {program}, on a machine of {machine(load)}.", ""]
    lines += [f"Left out: {it}." for it in left_out] + [""] * bool(left_out)
    heads = ["Work", "What", "Program", *[f"{size:,}" for size in sizes], "growth", "of tbhost's"]
    lines += ["| " + " | ".join(heads) + " |", "|---|---|---|" + "--:|" * (len(heads) - 3)]
    ahead, last, last_what = {}, None, None
    for (work, measure), programs in figures.medians():
        host = next((values for name, values in programs.items() if name.startswith(HOST)), {})
        for name, values in programs.items():
            ratio = None if name.startswith(HOST) else beside(host, values)
            shown = "" if ratio is None else f"{ratio:.2f}"
            if name not in (LOOP, BARE) and is_ahead(measure, ratio):
                shown = f"**{shown}**"
                ahead.setdefault(work, {}).setdefault(name, []).append(f"{measure.title} {ratio:.2f}")
            cells = [told(values[size]) if size in values else "" for size in sizes]
            what = f"{measure.title}, {measure.unit}"
            grown = growth(values) if measure.unit == "s" else ""
            named = [work if work != last else "", what if (work, what) != last_what else "", name]
            lines.append("| " + " | ".join([*named, *cells, grown, shown]) + " |")
            last, last_what = work, (work, what)
    if ahead:
        lines += ["", "Peers are ahead here; the numbers are their figures over the host's:", ""]
    for work, found in ahead.items():
        lines.append(f"- {work}: " + "; ".join(f"{name}: {', '.join(said)}" for name, said in found.items()))
    return "\n".join(lines) + "\n"


def put(page, text):
    path = pathlib.Path(page)
    before, rest = path.read_text().split(BEGIN)
    path.write_text(before + BEGIN + "\n" + text + "\n" + END + rest.split(END)[1])
