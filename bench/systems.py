"""What bench/clients and bench/run measure: hbpi, and other stores with as many clients."""
import contextlib
import fcntl
import os
import resource
import shutil
import subprocess
import tempfile
import time

import postgres
import texts
import traced

HERE = os.path.dirname(os.path.realpath(__file__))
ROOT = os.path.dirname(HERE)
PROGRAM = os.environ.get("HBPI_PROGRAM", f"{ROOT}/crates/hbpi_cli/out/hbpi_cli")
SYSTEMS = ("sqlite", "lmdb", "postgres")
TEXTS = {
    "inserts": lambda count, sessions: texts.insert_all(texts.spread(count), sessions),
    "mix": lambda count, sessions: texts.mixed(1, count, 2, sessions),
}


def used():
    both = resource.getrusage(resource.RUSAGE_CHILDREN)
    return both.ru_utime + both.ru_stime


def replies(lines):
    """What was replied to each line that isn't a search."""
    pairs = (line.split(" ", 1) for line in lines if line[0].isdigit())
    return {int(number): reply for number, reply in pairs if not reply.startswith("box")}


def text_of(lines):
    return "".join(f"{line}\n" for line in lines).encode()


class Program:
    """hbpi over new files with log areas of so many bytes."""

    def __init__(self, program, log):
        self.program, self.log = program, log

    def run(self, folder, form, text, before=()):
        """The seconds that a run over a new file takes from having the text on, those of the processor, and its output."""
        file, out = f"{folder}/file", f"{folder}/out"
        if os.path.exists(file):
            os.remove(file)
        subprocess.run([self.program, file, "create", "2", "65536", str(self.log), "48", "256"], check=True, stdout=subprocess.DEVNULL)
        processor = used()
        with open(out, "wb") as written:
            run = subprocess.Popen([*before, self.program, file, form], stdin=subprocess.PIPE, stdout=written)
            fcntl.fcntl(run.stdin, fcntl.F_SETPIPE_SZ, 4096)
            run.stdin.write(text)
            run.stdin.flush()
            begun = time.perf_counter()
            run.stdin.close()
            assert run.wait() == 0
        return time.perf_counter() - begun, used() - processor, out


class Drive(Program):
    """`drive`, whose sessions take so many steps each in turn."""

    def __init__(self, log, each, sessions, commands, program=PROGRAM):
        super().__init__(program, log)
        self.each, self.sessions = each, sessions
        self.steps, self.plain = 4 * len(commands), text_of(commands)

    def whole(self):
        """The text with its step lines."""
        if self.each == 1:
            return self.plain + text_of(texts.schedule(self.steps, self.sessions, True))
        return self.plain + text_of(texts.rounds(self.steps, self.sessions, self.each))

    def measure(self, folder):
        plain, idle, _ = self.run(folder, "drive", self.plain)
        whole, busy, out = self.run(folder, "drive", self.whole())
        with open(out, encoding="ascii") as lines:
            return whole, busy, plain, idle, replies(lines)

    def counts(self, folder):
        """Finds how many steps it takes; what these do by strace, less what a run without steps does."""
        while b"unfinished" in open(self.run(folder, "drive", self.whole())[2], "rb").read():
            self.steps = self.steps * 5 // 4
        idle = traced.counts(self, folder, self.plain)
        busy = traced.counts(self, folder, self.whole())
        return {name: busy[name] - idle[name] for name in busy}

    def name(self):
        return f"drive, {self.log:,}, {self.each} in turn"


class Client:
    """Another system, by clients_baseline."""

    def __init__(self, system, sessions, commands, baseline, server):
        self.system, self.sessions, self.baseline, self.server = system, sessions, baseline, server
        self.given = text_of(commands)

    def run(self, folder, before=()):
        place = f"{folder}/{self.system}"
        shutil.rmtree(place, ignore_errors=True)
        os.mkdir(place)
        words = {"sqlite": f"{place}/file", "lmdb": place, "postgres": self.server and self.server.folder}
        begun = self.server.used() if self.system == "postgres" else 0
        done = subprocess.run([*before, self.baseline, self.system, words[self.system], str(self.sessions)], input=self.given, stdout=subprocess.PIPE, check=True)
        took, *lines = done.stdout.decode("ascii").splitlines(keepends=True)
        clock, processor = map(float, took.split())
        if self.system == "postgres":
            processor += self.server.used() - begun
        return clock, processor, 0, 0, replies(lines)

    measure = run

    def counts(self, folder):
        """What a run does, with its preparing and connecting, by perf. Of PostgreSQL what its server tells."""
        if self.system == "postgres":
            return self.server.counts(lambda: self.run(folder))
        data = f"{folder}/calls"
        self.run(folder, traced.recording(data))
        told = traced.calls(data)
        told.pop("bells")
        return told

    def name(self):
        return self.system


def measured(contenders, folder, runs):
    """The times of each contender. In each round every one of them runs once; all have to reply the same."""
    times, answers = [[] for _ in contenders], None
    for _ in range(runs):
        for at, it in enumerate(contenders):
            *took, said = it.measure(folder)
            times[at].append(took)
            answers = answers or said
            assert said == answers, (it.name(), [(line, said.get(line), answers[line]) for line in answers if said.get(line) != answers[line]][:3])
    return times


def number(value, digits=2):
    return "" if value is None else f"{value:,.{digits}f}"


def costs(times, count):
    """Commands a second by the best run and by the middle one, and so the microseconds of the processor for each."""
    clocks, processors = (sorted(it[at] - min(it[at + 2] for it in times) for it in times) for at in (0, 1))
    runs = 0, len(times) // 2
    return [count / clocks[at] for at in runs], [processors[at] / count * 1e6 for at in runs]


def built(top):
    """The program over the others, where there are a compiler and the libraries."""
    made = f"{top}/clients_baseline"
    words = ["cc", "-O2", "-I/usr/include/postgresql", "-o", made, f"{HERE}/clients_baseline.c", "-lsqlite3", "-llmdb", "-lpq", "-lpthread"]
    if subprocess.run(words, check=False).returncode:
        print("The others can't be built here.")
        return None
    return made


@contextlib.contextmanager
def others(folder):
    """A new folder, and what makes the clients of so many sessions with these commands."""
    if "HBPI_PROGRAM" not in os.environ:
        subprocess.run([f"{ROOT}/build"], check=True)
    with tempfile.TemporaryDirectory(prefix="hbpi-bench-", dir=folder) as place, postgres.server(f"{place}/server") as server:
        baseline = built(place)
        served = [system for system in SYSTEMS if baseline and (server or system != "postgres")]
        yield place, lambda sessions, commands: [Client(system, sessions, commands, baseline, server) for system in served]
