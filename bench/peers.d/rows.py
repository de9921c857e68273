"""The rows of bench/peers: each makes its work once a size, and gives each program's call, which tells its figures."""

import argparse
import collections
import contextlib
import filecmp
import os
import pathlib
import re
import shutil
import subprocess
import sys
import tempfile
import time

import links
import postgres
import works
from table import BARE, CLOCK, HOST, LATE, LOOP, MEDIAN, MEMORY, PROCESSOR, SPEED, Figures, put, written

CPP, RUST, SQLITE = "C++, standard tables", "Rust, BTreeMap", "SQLite"
PROGRAM = os.environ["TBHOST_PROGRAM"]
# A script has at most 1,000,000 lines, a table as many records, and a bidder 1,000 bids in an auction.
MOST_SCRIPT, MOST_ROWS, MOST_BOOK, MOST_MIXED, MOST_POSTS = 995_000, 999_998, 999_999, 990_000, 2_000
LINKS = 1, 2, 8
GROUP = 64
Used = collections.namedtuple("Used", "clock processor memory")


def used(words, folder, given=os.devnull, taken=os.devnull):
    """Runs a command in a folder: its seconds by the clock and of the processor, and its peak memory in bytes."""
    told = BUILT / "told"
    with open(given, "rb") as source, open(taken, "wb") as sink:
        subprocess.run([BUILT / "used", told, *words], cwd=folder, stdin=source, stdout=sink, check=True)
    clock, processor, memory = told.read_text().split()
    return Used(float(clock), float(processor), int(memory) * 1024)


def figures_of(spent, count, clock=False):
    """Processor time, peak memory for each of the count, and the clock where it is asked."""
    return {PROCESSOR: spent.processor, **({CLOCK: spent.clock} if clock else {}), MEMORY: spent.memory / count}


def same(one, other, what):
    if one != other:
        raise SystemExit(f"bench/peers: {what} differ: {one!r} and {other!r}")


@contextlib.contextmanager
def room(where):
    with tempfile.TemporaryDirectory(dir=where) as folder:
        os.chmod(folder, 0o755)
        yield pathlib.Path(folder)


def has(name):
    return (BUILT / name).exists()


def rate(steps):
    return f"{steps / 200:.3f}"


class PostgreSQL:
    """One server for all rows. Its checkpoints are put off: recovery meets all that was written since the last."""

    server = None

    @classmethod
    def is_here(cls):
        if shutil.which("pg_config") is None:
            return False
        programs = subprocess.run(["pg_config", "--bindir"], capture_output=True, text=True, check=True).stdout.strip()
        return os.path.exists(os.path.join(programs, "initdb"))

    @classmethod
    def get(cls):
        if cls.server is None:
            cls.server = postgres.Server(MEMORY_FOLDER, "max_wal_size=16GB", "checkpoint_timeout=1d", "autovacuum=off")
        return cls.server

    @classmethod
    def name(cls):
        return "PostgreSQL " + cls.get().ask("SHOW server_version")[0].split()[0]

    @classmethod
    def copy(cls, table, total, high):
        """Copies a table of bids into an empty one with the same keys: seconds by the clock and of the processor."""
        server = cls.get()
        server.ask("DROP TABLE IF EXISTS bids; CREATE TABLE bids (number bigint PRIMARY KEY, auction text NOT NULL, "
                   "bidder text NOT NULL, rate numeric(6, 3) NOT NULL, "
                   "amount bigint NOT NULL CHECK (amount % 100 = 0)); "
                   "CREATE INDEX by_rate ON bids (auction, rate, bidder, number); CHECKPOINT;")
        before, begun = server.processor(), time.monotonic()
        server.ask(f"COPY bids FROM '{table}' CSV HEADER")
        clock = time.monotonic() - begun
        spent = server.processor() - before
        cls.check(total, high)
        return clock, spent

    @classmethod
    def check(cls, total, high):
        told = cls.get().ask("SELECT sum(amount), max(rate) FROM bids")
        same(told, [f"{total} {rate(high)}"], "PostgreSQL's sum and rate")


def results(told):
    """The sum of the awards and the stop-out rate, from the lines of results."""
    return re.search(r"^competitive (.*)$", told, re.M)[1], re.search(r"^high (.*)$", told, re.M)[1]


def open_row(size, folder):
    works.head(PROGRAM, folder)
    journal, table, script, taken = folder / "auction.journal", folder / "table", folder / "end", folder / "taken"
    total, high = works.add_bids(journal, size, True)
    awarded = str(total), rate(high)
    script.write_text("end\n")
    count = size + works.BIDDERS + 3

    def opened():
        return figures_of(used([PROGRAM, "run", "--op", "root"], folder, script), count, True)

    def reported():
        words = [PROGRAM, "report", "results", "bill", "--op", "root", "--key", "k1"]
        spent = used(words, folder, taken=taken)
        same(results(taken.read_text()), awarded, "the results")
        return figures_of(spent, count, True)

    def tables():
        spent = used([BUILT / "open", journal, "bill"], folder, taken=taken)
        same(results(taken.read_text()), awarded, "the results of C++")
        same(taken.read_text().split()[1], str(size), "the bids of C++")
        return figures_of(spent, count, True)

    calls = {f"{HOST}, `run` of `end`": opened, f"{HOST}, `report results`": reported, f"{CPP}, and results": tables}
    # The rows of the journal's bids: the same seed gives the same bids.
    same(works.table_of_bids(table, size), (total, high), "the bids of journal and table")
    if has("sqlite_rows"):
        base = folder / "base"
        used([BUILT / "sqlite_rows", "put", base, "0"], folder, table)

        def summed():
            spent = used([BUILT / "sqlite_rows", "sum", base], folder, taken=taken)
            same(taken.read_text(), f"{size} {total} {high}\n", "SQLite's sums")
            return figures_of(spent, count, True)

        calls[f"{SQLITE}, nothing rebuilt, and sums"] = summed
    if PostgreSQL.is_here():

        def recovered():
            PostgreSQL.copy(table, total, high)
            server = PostgreSQL.get()
            server.kill()
            begun = time.monotonic()
            server.start()
            PostgreSQL.check(total, high)
            return {CLOCK: time.monotonic() - begun, PROCESSOR: server.processor()}

        calls[f"{PostgreSQL.name()}, recovery, and sums"] = recovered
    return calls


def script_row(size, folder, kind):
    make, most = (works.script_of_bids, MOST_SCRIPT) if kind == "run" else (works.script_of_moves, MOST_MIXED)
    script, taken = folder / "script", folder / "taken"
    count, last = make(script, min(size, most))
    words = [PROGRAM, "run", "--op", "root"]
    with room(folder) as house:
        used(words, house, script, taken)
        kept = folder / "journal"
        shutil.move(house / "auction.journal", kept)
    replies = taken.read_text().splitlines()
    same(replies[-1], last, "the last line")
    verdicts = [line for line in replies if line.startswith("accepted ")]
    same(len(verdicts), count, "counts of accepted messages")
    totals = [line for line in replies if line.startswith(("total ", "high ", "competitive "))]

    def compared(who):
        told = taken.read_text().splitlines()
        if [line for line in told if line.startswith("accepted ")] != verdicts:
            raise SystemExit(f"bench/peers: the replies of {who} differ")
        for line in told:
            if line.startswith(("total ", "high ", "competitive ")) and line not in totals:
                raise SystemExit(f"bench/peers: {who} tells {line}, and the host {totals}")

    def host():
        with room(folder) as house:
            spent = used(words, house, script, taken)
        compared(HOST)
        return figures_of(spent, count)

    def loop():
        with room(folder) as house:
            return figures_of(used([BUILT / "loop", house / "file", str(count), "1"], house), count)

    def tables():
        with room(folder) as house:
            spent = used([BUILT / "run", house / "journal"], house, script, taken)
            if not filecmp.cmp(house / "journal", kept, shallow=False):
                raise SystemExit("bench/peers: the journals of host and C++ differ")
        compared(CPP)
        return figures_of(spent, count)

    def sqlite():
        with room(folder) as house:
            spent = used([BUILT / "sqlite_run", house / "base"], house, script, taken)
        compared(SQLITE)
        return figures_of(spent, count)

    calls = {HOST: host, LOOP: loop}
    if kind == "run":
        calls[CPP] = tables
    if has("sqlite_run"):
        calls[SQLITE] = sqlite
    return calls


def import_row(size, folder):
    house, table, taken = folder / "house", folder / "table", folder / "taken"
    house.mkdir()
    works.head(PROGRAM, house, works.LATER, works.TERMS_LATER)
    count = min(size, MOST_ROWS)
    total, high = works.table_of_bids(table, count)

    def host():
        with room(folder) as own:
            shutil.copy(house / "auction.journal", own)
            spent = used([PROGRAM, "import", "--op", "root", "--key", "k1"], own, table, taken)
        same(taken.read_text().count(" accepted "), count, "counts of accepted rows")
        return figures_of(spent, count, True)

    def sqlite():
        with room(folder) as own:
            spent = used([BUILT / "sqlite_rows", "put", own / "base", "0"], own, table, taken)
        same(taken.read_text().splitlines()[1], f"{count} {total} {high}", "SQLite's sums")
        return figures_of(spent, count, True)

    def copy():
        clock, processor = PostgreSQL.copy(table, total, high)
        return {CLOCK: clock, PROCESSOR: processor}

    calls = {HOST: host}
    if has("sqlite_rows"):
        calls[f"{SQLITE}, one transaction"] = sqlite
    if PostgreSQL.is_here():
        calls[f"{PostgreSQL.name()}, COPY"] = copy
    return calls


def award_row(size, folder, bidders):
    book, taken = folder / "book", folder / "taken"
    count = min(size, MOST_BOOK)
    works.book(book, count, bidders)
    told = []

    def run(words):
        spent = used(words, folder, book, taken)
        told.append(taken.read_text())
        same(told[-1], told[0], "the awards")
        return figures_of(spent, count)

    return {HOST: lambda: run([PROGRAM, "award"]), CPP: lambda: run([BUILT / "award"])}


def trial_row(size, folder):
    taken, told = folder / "taken", []

    def run(words):
        spent = used([*words, "1", str(size)], folder, taken=taken)
        told.append([line for line in taken.read_text().splitlines() if line.startswith(("high ", "allotted "))])
        same(told[-1], told[0], "the trials")
        return figures_of(spent, size)

    calls = {HOST: lambda: run([PROGRAM, "trial"]), CPP: lambda: run([BUILT / "trial"])}
    if has("trial_rs"):
        calls[RUST] = lambda: run([BUILT / "trial_rs"])
    return calls


def durable_row(size, folder, group):
    """On a real file: the folder for temporary files stands in for one."""
    count = min(size, MOST_POSTS) // GROUP * GROUP * (10 if group > 1 else 1)
    bidders = count // 1000 + 1
    house, script, table, taken = folder / "house", folder / "script", folder / "table", folder / "taken"
    house.mkdir()
    works.head(PROGRAM, house, works.LATER, works.TERMS_LATER, bidders)
    works.script_of_bids_alone(script, count, bidders)
    total, high = works.table_of_bids(table, count, bidders)

    def host():
        words = ["run", "--op", "root"] if group == 1 else ["import", "--op", "root", "--key", "k1"]
        with room(None) as own:
            shutil.copy(house / "auction.journal", own)
            spent = used([PROGRAM, *words], own, script if group == 1 else table, taken)
        same(taken.read_text().count("accepted "), count, "counts of accepted bids")
        return {SPEED: count / spent.clock}

    def timed(words, given=os.devnull):
        with room(None) as own:
            used([BUILT / words[0], *words[1:]], own, given, taken)
        return {SPEED: count / float(taken.read_text().split()[0])}

    def sqlite():
        measured = timed(["sqlite_rows", "put", "base", str(group)], table)
        same(taken.read_text().splitlines()[1], f"{count} {total} {high}", "SQLite's sums")
        return measured

    calls = {f"{HOST}, `{'run' if group == 1 else 'import'}`": host,
             LOOP: lambda: timed(["loop", "file", str(count // group), str(group)])}
    if has("sqlite_rows"):
        calls[f"{SQLITE}, WAL"] = sqlite
    return calls


def serve_row(size, folder, count):
    """Bids over so many links. All files are real ones."""
    each = min(size, MOST_POSTS) // count

    def asked(port):
        seconds, median, late = links.asked(BUILT / "client", port, count, 1, each)
        return {SPEED: count * each / seconds, MEDIAN: 1000 * median, LATE: 1000 * late}

    def opened(own, words):
        subprocess.run(words, cwd=own, input=links.opening(count).encode(), stdout=subprocess.DEVNULL, check=True)

    def host():
        with room(None) as own:
            opened(own, [PROGRAM, "run", "--op", "root"])
            server, port = links.start(PROGRAM, own, count, 1)
            measured = asked(port)
            told, _ = server.communicate(timeout=60)
            same(told.decode(), f"served {count}\naccepted {count * each}\n", "what was served")
            return measured

    def plain(words):
        with room(None) as own:
            port = links.free_port()
            if words[0] == "sqlite_serve":
                opened(own, [BUILT / "sqlite_run", "base"])
            rest = [str(port) if it == "PORT" else it for it in words[1:]]
            server = subprocess.Popen([BUILT / words[0], *rest], cwd=own)
            measured = asked(port)
            same(server.wait(timeout=60), 0, "statuses")
            return measured

    calls = {HOST: host, BARE: lambda: plain(["client", "PORT", str(count), "1", str(links.MOMENT)])}
    if has("sqlite_serve"):
        calls[f"{SQLITE} behind 8 threads"] = lambda: plain(["sqlite_serve", "base", "PORT", str(count)])
    return calls


def sales_row(size, folder):
    """bench/sales runs the host and PostgreSQL by turns, and compares what both hold at the end."""
    told = {}

    def run():
        ran = subprocess.run([SALES, str(size)], capture_output=True, text=True)
        if ran.returncode != 0:
            raise SystemExit(ran.stdout + ran.stderr)
        form = r"^(.+): \d+ messages, ([\d.]+) s by the clock, ([\d.]+) s of the processor"
        found = re.findall(form, ran.stdout, re.M)
        told.update({name: {CLOCK: float(clock), PROCESSOR: float(processor)} for name, clock, processor in found})
        return told["host"]

    calls = {HOST: run}
    if PostgreSQL.is_here():
        name = PostgreSQL.name()
        calls[name] = lambda: told[name]
    return calls


# By the word of the command line: the works, each with its name and its row.
ROWS = {
    "open": [("opening a journal of N bids", open_row)],
    "run": [("`run` of N bids, one by one", lambda size, folder: script_row(size, folder, "run"))],
    "import": [("`import` of N bids", import_row)],
    "award": [("`award` of N lines, 16,384 bidders", lambda size, folder: award_row(size, folder, 16_384))],
    "distinct": [("`award` of N lines, each its own bidder", lambda size, folder: award_row(size, folder, None))],
    "trial": [("`trial 1 N`", trial_row)],
    "mixed": [("`run` of N bids, transfers, pledges, releases",
               lambda size, folder: script_row(size, folder, "mixed"))],
    "durable": [(f"bids on a disk, {group} a group", lambda size, folder, group=group: durable_row(size, folder, group))
                for group in (1, GROUP)],
    "serve": [(f"posts on a disk, {count} link{'s' * (count > 1)}",
               lambda size, folder, count=count: serve_row(size, folder, count))
              for count in LINKS],
    "sales": [("N sells and buys", sales_row)],
}
# Their works have a size of their own, and stand under the smallest.
FIXED = "durable", "serve"


def measured(names, sizes, times):
    figures = Figures()
    for name in names:
        for work, row in ROWS[name]:
            for size in sizes[:1] if name in FIXED else sizes:
                with room(MEMORY_FOLDER) as folder:
                    calls = row(size, folder)
                    for turn in range(times):
                        print(f"{work}: {size}, turn {turn + 1} of {times}", file=sys.stderr, flush=True)
                        for program, call in calls.items():
                            figures.add(work, program, size, call())
    return figures


def missing():
    if not has("sqlite_rows"):
        yield "SQLite, for want of sqlite3.h"
    if not has("trial_rs"):
        yield "Rust, for want of rustc"
    if not PostgreSQL.is_here():
        yield "PostgreSQL, for want of pg_config or of its server"


def main(words):
    parser = argparse.ArgumentParser(prog="bench/peers")
    parser.add_argument("rows", nargs="*", metavar="ROW", help=", ".join(ROWS))
    parser.add_argument("--sizes", default="10000,100000,1000000")
    parser.add_argument("--times", type=int, default=5)
    parser.add_argument("--page")
    asked = parser.parse_args(words)
    if unknown := [name for name in asked.rows if name not in ROWS]:
        parser.error(f"no row {', '.join(unknown)}; there are {', '.join(ROWS)}")
    sizes = sorted(int(word) for word in asked.sizes.split(","))
    try:
        figures = measured(asked.rows or list(ROWS), sizes, asked.times)
    finally:
        if PostgreSQL.server is not None:
            PostgreSQL.server.stop()
    text = written(figures, sizes, asked.times, LOAD, NAMED, list(missing()))
    print(text, end="")
    if asked.page:
        put(asked.page, text)


BUILT, MEMORY_FOLDER, SALES = map(pathlib.Path, sys.argv[1:4])
NAMED, LOAD = sys.argv[4], float(sys.argv[5])
main(sys.argv[6:])
