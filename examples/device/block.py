"""A block device whose writes fail on demand, a file system on it, and what a power cut would leave of it.

The device is one of zram, which keeps its blocks in memory: while its limit of memory is a page each write fails, but of
pages that repeat one word. A loop in direct mode lies between it and the file system, so that whatever the system keeps
in memory for the file system isn't in that of the device: a direct read of the device gives what a power cut at that
moment would leave, and changes nothing."""
import contextlib, ctypes, mmap, os, pathlib, shutil, subprocess, time

CONTROL = pathlib.Path("/sys/class/zram-control")
PIECE = 1 << 20
ZEROS = bytes(PIECE)


def ran(*words):
    """What a command printed. It has to succeed."""
    done = subprocess.run(words, capture_output=True, text=True)
    if done.returncode:
        raise OSError(f"{' '.join(words)}: {done.stderr.strip()}")
    return done.stdout.strip()


def lacking():
    """What the system lacks for such a device, or nothing."""
    if os.geteuid() != 0:
        return "root"
    for tool in ("gcc", "losetup", "mount", "mkfs.ext4"):
        if not shutil.which(tool):
            return tool
    if not os.access(CONTROL / "hot_add", os.R_OK):
        return "zram"
    if not os.path.exists("/dev/loop-control"):
        return "loop"


def looped(*words):
    """A loop over a file or a device."""
    return ran("losetup", "--find", "--show", *words)


def let_go(loop):
    for _ in range(50):
        with contextlib.suppress(OSError):
            return ran("losetup", "--detach", loop)
        time.sleep(0.1)


class Block:
    """A device of so many megabytes, whose writes can be made to fail."""

    def __init__(self, megabytes):
        number = int((CONTROL / "hot_add").read_text())
        self.number, self.path, self.folder = number, f"/dev/zram{number}", pathlib.Path(f"/sys/block/zram{number}")
        self.megabytes, self.loop = megabytes, None
        self.limit = self.folder / "mem_limit"

    def begin(self):
        """A device without contents."""
        self.end()
        (self.folder / "reset").write_text("1")
        (self.folder / "disksize").write_text(f"{self.megabytes}M")
        self.loop = looped("--direct-io=on", "--sector-size", "4096", self.path)

    def bad(self):
        self.limit.write_text("4096")

    def well(self):
        self.limit.write_text("0")

    def image(self, path):
        """Copies what the device has into a file with holes."""
        file = os.open(self.path, os.O_RDONLY | os.O_DIRECT)
        piece = mmap.mmap(-1, PIECE)
        with open(path, "wb") as copy:
            for at in range(self.megabytes):
                if os.preadv(file, [piece], at * PIECE) != PIECE:
                    raise OSError(f"{self.path}: a short read")
                if piece[:] != ZEROS:
                    os.pwrite(copy.fileno(), piece, at * PIECE)
            os.truncate(copy.fileno(), self.megabytes * PIECE)
        piece.close()
        os.close(file)

    def end(self):
        self.well()
        if self.loop:
            let_go(self.loop)
            self.loop = None

    def close(self):
        self.end()
        for _ in range(50):
            with contextlib.suppress(OSError):
                (self.folder / "reset").write_text("1")
                (CONTROL / "hot_remove").write_text(str(self.number))
                break
            time.sleep(0.1)


class System:
    """A file system on such a device. With `journal` its journal lies on another device, which never fails. `goes_on`
    tells behind which syncs that failed it takes writes: where its own journal couldn't be written it takes none until it
    is mounted anew."""

    def __init__(self, name, megabytes, tool, *words, options=None, journal=0, goes_on=()):
        self.name, self.megabytes, self.options, self.journal = name, megabytes, options, journal
        self.goes_on = {what: what in goes_on for what in ("frame", "gate")}
        self.words = (tool, *words)
        self.block = self.beside = None

    def open(self):
        self.block = Block(self.megabytes)
        self.beside = Block(self.journal) if self.journal else None

    def close(self):
        for it in (self.block, self.beside):
            if it:
                it.close()

    def blocks(self):
        return [it for it in (self.block, self.beside) if it]

    def make(self, place):
        """A new file system, mounted at the place."""
        for it in self.blocks():
            it.begin()
        words = list(self.words)
        if self.beside:
            ran("mke2fs", "-q", "-F", "-b", "4096", "-O", "journal_dev", self.beside.loop)
            words += ["-J", f"device={self.beside.loop}"]
        ran(*words, self.block.loop)
        self.mount(place, [it.loop for it in self.blocks()])

    def mount(self, place, loops):
        options = [self.options] if self.options else []
        if len(loops) > 1:
            options.append(f"journal_path={loops[1]}")
        ran("mount", *(["-o", ",".join(options)] if options else []), loops[0], str(place))

    def images(self, folder):
        """What a power cut now would leave: a file for each device."""
        found = []
        for at, it in enumerate(self.blocks()):
            found.append(f"{folder}.{at}")
            it.image(found[-1])
        return found

    @contextlib.contextmanager
    def mounted(self, images, place):
        """The file system of such files, as the next start of the machine finds it. The devices themselves have to be
        let go before: two systems of one name aren't mounted side by side."""
        loops = [looped("--sector-size", "4096", it) for it in images]
        try:
            self.mount(place, loops)
            try:
                yield
            finally:
                unmounted(place)
        finally:
            for it in loops:
                let_go(it)
            for it in images:
                os.remove(it)


def unmounted(place):
    for _ in range(50):
        # A system that has shut down can't be asked whether it is mounted.
        if f" {place} " not in pathlib.Path("/proc/self/mounts").read_text():
            return
        with contextlib.suppress(OSError):
            ran("umount", str(place))
            return
        time.sleep(0.1)
    ran("umount", "-l", str(place))


LIBRARY = ctypes.CDLL(None)
# SYNC_FILE_RANGE_WRITE: writing is begun, and nobody waits for it.
WRITES = 2


def flush(path):
    """Has the system write what memory has of a file, or of the whole file system where a folder is named. Where that
    fails nobody is told but who syncs the file next."""
    file = os.open(path, os.O_RDONLY)
    if os.path.isdir(path):
        LIBRARY.syncfs(file)
    else:
        LIBRARY.sync_file_range(file, ctypes.c_long(0), ctypes.c_long(0), WRITES)
        time.sleep(0.1)
    os.close(file)


EXT4 = ["mkfs.ext4", "-q", "-F", "-b", "4096"]
SYSTEMS = [
    System("ext4", 32, *EXT4, goes_on=["gate"]),
    System("ext4, no journal", 32, *EXT4, "-O", "^has_journal", goes_on=["gate", "frame"]),
    System("ext4, journal elsewhere", 32, *EXT4, journal=16, goes_on=["gate", "frame"]),
    System("ext4, data in the journal", 32, *EXT4, options="data=journal"),
    System("xfs", 320, "mkfs.xfs", "-q", "-f"),
    System("btrfs", 256, "mkfs.btrfs", "-q", "-f"),
]
