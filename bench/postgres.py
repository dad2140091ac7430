"""A PostgreSQL server for bench/clients, as Debian installs it, with the settings that it has by itself."""
import contextlib
import glob
import os
import shutil
import subprocess
import time

TICK = os.sysconf("SC_CLK_TCK")


def as_postgres(*words, **more):
    """A call by the user of the server, which refuses to be started by root."""
    return subprocess.run(["runuser", "-u", "postgres", "--", *words], check=True, stdout=subprocess.DEVNULL, **more)


class Server:
    def __init__(self, folder):
        self.folder = folder
        with open(f"{folder}/data/postmaster.pid", encoding="ascii") as it:
            self.process = int(it.readline())

    def used(self):
        """The seconds of the processor that the server has had, with those of its clients' processes that have ended."""
        time.sleep(0.3)
        total = 0
        for name in glob.glob("/proc/[0-9]*/stat"):
            with contextlib.suppress(OSError), open(name, encoding="ascii", errors="replace") as it:
                process, fields = int(name.split("/")[2]), it.read().rpartition(")")[2].split()
                if process == self.process:
                    total += sum(map(int, fields[11:15]))
                elif int(fields[1]) == self.process:
                    total += sum(map(int, fields[11:13]))
        return total / TICK

    def told(self, columns):
        words = ["psql", "-h", self.folder, "-U", "postgres", "-Atc", f"SELECT {columns} FROM pg_stat_wal"]
        return list(map(int, subprocess.run(words, check=True, capture_output=True, text=True).stdout.split("|")))

    def counts(self, run):
        """How often the log was synced in a run, and how many bytes it got."""
        time.sleep(1)
        before = self.told("wal_sync, wal_bytes")
        run()
        time.sleep(1)
        after = self.told("wal_sync, wal_bytes")
        return {"syncs": after[0] - before[0], "bytes": after[1] - before[1]}


@contextlib.contextmanager
def server(folder):
    """A new server whose data and socket are in this folder; None where it isn't installed."""
    found = sorted(glob.glob("/usr/lib/postgresql/*/bin"))
    if not found or not shutil.which("runuser"):
        print("PostgreSQL can't be started here.")
        yield None
        return
    os.chmod(os.path.dirname(folder), 0o755)
    os.mkdir(folder)
    shutil.chown(folder, "postgres")
    as_postgres(f"{found[-1]}/initdb", "-A", "trust", "-D", f"{folder}/data")
    control = [f"{found[-1]}/pg_ctl", "-w", "-D", f"{folder}/data"]
    as_postgres(*control, "-l", f"{folder}/log", "-o", f"-c listen_addresses= -k {folder}", "start")
    try:
        yield Server(folder)
    finally:
        as_postgres(*control, "-m", "fast", "stop")
