"""A server of PostgreSQL for bench/sales and bench/peers. Without `pg_config` there is none."""

import contextlib
import os
import pathlib
import pwd
import signal
import subprocess
import time


def stat_of(number):
    """What the system tells of a process, from its state on."""
    return pathlib.Path(f"/proc/{number}/stat").read_text().rsplit(")", 1)[1].split()


def is_running(number):
    with contextlib.suppress(OSError):
        return stat_of(number)[0] != "Z"
    return False


class Server:
    """PostgreSQL with its files in a folder, which its own user has to be able to enter."""

    def __init__(self, folder, *settings):
        self.settings = [word for setting in settings for word in ("-c", setting)]
        self.home = folder / "postgres"
        self.home.mkdir()
        self.user = {}
        if os.geteuid() == 0:
            self.user = {"user": "postgres", "group": "postgres", "extra_groups": []}
            os.chown(self.home, pwd.getpwnam("postgres").pw_uid, pwd.getpwnam("postgres").pw_gid)
        programs = subprocess.run(["pg_config", "--bindir"], capture_output=True, text=True, check=True).stdout.strip()
        self.programs = pathlib.Path(programs)
        self.call("initdb", "-D", self.home / "data", "-A", "trust", "-U", "bench")
        self.start()

    def start(self):
        # Other settings stay at what they are installed with: fsync and synchronous_commit are on.
        words = [self.programs / "postgres", "-D", self.home / "data", "-k", self.home, "-h", "", *self.settings]
        self.server = subprocess.Popen(words, stdout=subprocess.DEVNULL, stderr=subprocess.DEVNULL, cwd=self.home,
                                       **self.user)
        asked = [self.programs / "pg_isready", "-h", self.home]
        for _ in range(60_000):
            if subprocess.run(asked, stdout=subprocess.DEVNULL).returncode == 0:
                return
            assert self.server.poll() is None, "PostgreSQL ended"
            time.sleep(0.01)
        raise SystemExit("PostgreSQL doesn't start")

    def call(self, name, *words, text=None):
        ran = subprocess.run([self.programs / name, *words], input=text, capture_output=True, text=True, cwd=self.home,
                             **self.user)
        assert ran.returncode == 0, ran.stderr
        return ran.stdout

    def ask(self, text):
        words = ["-h", self.home, "-U", "bench", "-d", "postgres", "-qAtF", " ", "-v", "ON_ERROR_STOP=1"]
        return self.call("psql", *words, text=text).splitlines()

    def own(self):
        """Ticks of the first process, and of those that it waited for."""
        return sum(map(int, stat_of(self.server.pid)[11:15]))

    def processor(self):
        """Seconds of the server's processes: those that are there, and those that the first one waited for."""
        while True:
            before, ticks = self.own(), 0
            for number in self.children():
                with contextlib.suppress(OSError):
                    ticks += sum(map(int, stat_of(number)[11:13]))
            # Else one may have ended between the two looks, and be counted twice or not at all.
            if self.own() == before:
                return (before + ticks) / os.sysconf("SC_CLK_TCK")

    def children(self):
        """The numbers of the server's own processes."""
        found = []
        for folder in pathlib.Path("/proc").glob("[0-9]*"):
            with contextlib.suppress(OSError):
                if int(stat_of(folder.name)[1]) == self.server.pid:
                    found.append(int(folder.name))
        return found

    def kill(self):
        """Ends the server and each of its processes with SIGKILL."""
        children = self.children()
        self.server.kill()
        for number in children:
            with contextlib.suppress(ProcessLookupError):
                os.kill(number, signal.SIGKILL)
        self.server.wait()
        while any(is_running(number) for number in children):
            time.sleep(0.001)

    def stop(self):
        # A fast shutdown, as pg_ctl asks for.
        self.server.send_signal(signal.SIGINT)
        self.server.wait()
