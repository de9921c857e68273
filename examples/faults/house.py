"""A house in a folder of its own, for the checks of hostile use: the program, run with or without faults, and what a
journal holds, taken apart here by docs/FORMATS.md alone."""
import collections, os, pathlib, shutil, struct, subprocess, sys, tempfile

here = pathlib.Path(__file__).resolve().parent
top = here.parent.parent
examples = top / "examples"
program = str(pathlib.Path(os.environ.get("TBHOST_PROGRAM") or top / "crates/tb_program/out/tb_program").resolve())
if not os.access(program, os.X_OK):
    sys.exit(f"{program}: no program there; `./tbhost award` builds it, and TBHOST_PROGRAM names another one")
TITLE, FIRST_TITLE = b"TBHOSTJOURNAL002", b"TBHOSTJOURNAL001"
# What each command may end with, by the table of statuses in docs/FORMATS.md. 1 is of any that opens a file.
OPENING = {1, 6, 7, 8, 9, 11}
STATUSES = {
    "award": {0, 3, 4, 5, 9},
    "trial": {0, 5, 9},
    "run": {0, 3, 4, 5} | OPENING,
    "import": {0, 3, 4, 5} | OPENING,
    "report": {0, 5} | OPENING,
    "serve": {0, 5, 10} | OPENING,
    "migrate": {0, 5} | OPENING - {11},
    "send": {0, 5} | OPENING,
    "take": {0, 3, 4, 5, 14} | OPENING,
    "register": {0, 5, 12, 13} | OPENING,
}
TOLD = {4: "read fault", 5: "write fault", 6: "disk fault", 9: "out of memory", 10: "gate fault", 13: "keeper fault"}
# The fields behind the tag of a record: a name, or so many bytes.
NAME = 0
FIELDS = {
    1: [NAME, NAME],
    2: [NAME, NAME],
    3: [4],
    4: [NAME, 9, 8, 8, 8, 8, 8, 4, 2, 2, 4, 4],
    5: [NAME, NAME, 4, 8],
    6: [NAME, NAME, 8],
    7: [NAME, 8],
    8: [NAME, NAME, 8],
    9: [NAME],
    10: [NAME],
    11: [9, NAME, 8],
    12: [9, NAME, 8],
    13: [NAME, 8, 8],
    14: [9],
    15: [NAME, NAME, 8],
    16: [NAME, 8],
    17: [NAME, 8],
    18: [9, NAME, 8, 8],
    19: [NAME, 8],
    20: [8],
}
Entry = collections.namedtuple("Entry", "sender number record")
Ended = collections.namedtuple("Ended", "status out err met")
wrongs = []


def wrong(what):
    """Tells a fault of the program: the first 30 in words."""
    wrongs.append(what)
    if len(wrongs) <= 30:
        print(f"WRONG {what}", file=sys.stderr, flush=True)


def tried(holds, what):
    if not holds:
        wrong(what)
    return holds


def records(payload):
    place, found = 0, []
    while place < len(payload):
        begun = place
        place += 1 + payload[place]
        sender = payload[begun + 1 : place].decode()
        number, _, tag = struct.unpack_from(">QQB", payload, place)
        place += 17
        for size in FIELDS[tag]:
            place += 1 + payload[place] if size == NAME else size
        found.append(Entry(sender, number, payload[begun:place]))
    assert place == len(payload), "a record runs past its payload"
    return found


def frames(data):
    """The payloads of a journal of the second version, which has to be whole."""
    if len(data) <= 18:
        return []
    assert data[:17] == TITLE + b"\1", "no title, or no seal"
    place, found = 17, []
    while data[place] == 1:
        size, ordinal = struct.unpack_from(">IQ", data, place + 1)
        assert 1 <= size <= 32768 and ordinal == len(found) and place + 13 + size < len(data), f"damaged at {place}"
        found.append(data[place + 13 : place + 13 + size])
        place += 13 + size
    return found


def entries(folder):
    path = pathlib.Path(folder, "auction.journal")
    data = path.read_bytes() if path.exists() else b""
    return [entry for payload in frames(data) for entry in records(payload)]


def library(folder):
    """The library of faults.c, built into the folder."""
    made = f"{folder}/faults.so"
    subprocess.run(["gcc", "-O2", "-Wall", "-shared", "-fPIC", "-o", made, str(here / "faults.c"), "-ldl"], check=True)
    return made


class Home:
    """A folder for houses, in memory where that can be had, and the program with faults."""

    def __init__(self):
        memory = "/dev/shm" if "TMPDIR" not in os.environ and os.access("/dev/shm", os.W_OK) else None
        self.made = tempfile.TemporaryDirectory(dir=memory)
        self.folder = pathlib.Path(self.made.name)
        self.faults = library(self.folder)

    def house(self, journal=None):
        """An empty folder, or one with this journal."""
        folder = self.folder / "house"
        shutil.rmtree(folder, ignore_errors=True)
        folder.mkdir()
        if journal is not None:
            (folder / "auction.journal").write_bytes(journal)
        return folder

    def surroundings(self, fault=None, clock=None):
        """What the environment of a program with this fault has."""
        with_them = dict(os.environ)
        if fault is not None or clock is not None:
            with_them["LD_PRELOAD"] = self.faults
        if fault is not None:
            with_them["FAULT"] = fault
            with_them["FAULT_MET"] = str(self.folder / "met")
        if clock is not None:
            with_them["CLOCK"] = str(clock)
        return with_them

    def run(self, folder, words, text=b"", fault=None, limit=60, **more):
        """The program with these words in the folder."""
        met = self.folder / "met"
        met.unlink(missing_ok=True)
        given = {"stdin": subprocess.PIPE, "stdout": subprocess.PIPE, "stderr": subprocess.PIPE, **more}
        child = subprocess.Popen([program, *words], cwd=folder, env=self.surroundings(fault), **given)
        try:
            out, err = child.communicate(text if given["stdin"] == subprocess.PIPE else None, limit)
        except subprocess.TimeoutExpired:
            child.kill()
            out, err = child.communicate()
            wrong(f"a run hangs: {words}, {fault}")
        return Ended(child.returncode, out or b"", (err or b"").decode(), met.exists())


def is_told(ended, what):
    """The line of a status is told on standard error, and nothing else."""
    line = TOLD.get(ended.status)
    wanted = "" if ended.status <= 0 else None if line is None else line + "\n"
    return wanted is None or tried(ended.err == wanted, f"{what}: status {ended.status} tells {ended.err!r}")


def replies(out):
    """The replies to the lines of a script. One that is cut at the end is left out."""
    lines = out.decode().split("\n")[:-1]
    found, place = [], 0
    while place < len(lines):
        count = int(lines[place][6:]) if lines[place].startswith("lines ") else 0
        if place + count >= len(lines):
            break
        found.append("\n".join(lines[place : place + 1 + count]))
        place += 1 + count
    return found


def story():
    """The scripts of the day in docs/DAY.md as one, with its lines."""
    lines = []
    for script in sorted((examples / "day").glob("*.script")):
        lines += [line for line in script.read_text().splitlines() if line != "end"]
    return lines


def script(lines):
    return "".join(f"{line}\n" for line in [*lines, "end"]).encode()
