"""Calls of the program that HBPI names. One that doesn't end is looked at before it is killed."""
import glob
import os
import shutil
import subprocess
import sys
import tempfile
import time

HERE = os.path.dirname(os.path.abspath(__file__))
sys.path.insert(0, os.path.join(os.path.dirname(HERE), "schedules"))
from plain_list import Bad  # noqa: E402

PROGRAM = os.path.abspath(os.environ.get("HBPI") or sys.exit("set HBPI to the program"))
# after so many seconds a call hangs
LIMIT = int(os.environ.get("LIMIT", "120"))
MOST = 2 ** 64 - 1


def read_or(name):
    try:
        with open(name) as f:
            return f.read().strip()
    except OSError as error:
        return str(error)


def look_at(process, text):
    """Writes down what each thread waits for, and kills the process."""
    place = os.path.join(tempfile.gettempdir(), f"hung-{process.pid}")
    with open(place, "w") as f:
        f.write(f"{process.args} {process.disturbed}\n")
        for task in sorted(glob.glob(f"/proc/{process.pid}/task/*")):
            f.write(f"{task} {read_or(task + '/wchan')} {read_or(task + '/syscall')}\n{read_or(task + '/stack')}\n")
        words = ["gdb", "-p", str(process.pid), "-batch", "-ex", "thread apply all bt"]
        try:
            f.write(subprocess.run(words, capture_output=True, text=True, timeout=60).stdout)
        except subprocess.TimeoutExpired:
            f.write("gdb was too slow\n")
        f.write("\n-- text\n" + text)
    process.kill()
    out = process.communicate()[0]
    with open(place, "a") as f:
        f.write("\n-- output\n" + (out or b"").decode("latin-1"))
    return Bad(f"HANGS: it was killed after {LIMIT} s; see {place}")


class Rooms:
    """A folder on a disk, one in memory, and the library that disturbs. All go at the end."""

    def __enter__(self):
        self.folders = [tempfile.mkdtemp(), tempfile.mkdtemp(dir="/dev/shm")]
        # the longest run over each, in seconds
        self.longest = {}
        self.disk, self.memory = (os.path.join(folder, "f") for folder in self.folders)
        self.library, self.told = (os.path.join(self.folders[1], name) for name in ("disturb.so", "told"))
        subprocess.run(["cc", "-O1", "-shared", "-fPIC", "-o", self.library, os.path.join(HERE, "disturb.c")], check=True)
        return self

    def __exit__(self, *_):
        for folder in self.folders:
            shutil.rmtree(folder)

    def begin(self, path, words, disturbed, cpu=None, **streams):
        """A process over the file. It runs on this processor alone where one is told."""
        words = ([] if cpu is None else ["taskset", "-c", str(cpu)]) + [PROGRAM, path] + words.split()
        environment = dict(os.environ, **disturbed)
        if disturbed:
            environment.update(LD_PRELOAD=self.library, TOLD=self.told)
        process = subprocess.Popen(words, stderr=subprocess.DEVNULL, env=environment, **streams)
        process.disturbed = disturbed
        return process

    def call(self, path, words, text="", cpu=None, **disturbed):
        """The status and the output."""
        begun = time.monotonic()
        process = self.begin(path, words, disturbed, cpu, stdin=subprocess.PIPE, stdout=subprocess.PIPE)
        try:
            out = process.communicate(text.encode("latin-1"), LIMIT)[0]
        except subprocess.TimeoutExpired:
            raise look_at(process, text) from None
        place = "disk" if path == self.disk else "memory"
        self.longest[place] = max(self.longest.get(place, 0), time.monotonic() - begun)
        return process.returncode, (out or b"").decode("latin-1")

    def make(self, path, case):
        if os.path.exists(path):
            os.remove(path)
        if self.call(path, case.create()) != (0, "created\n"):
            raise Bad("it can't be made")

    def holds(self, path, k):
        """The records that the next opening finds. The file has to be sound."""
        said = self.call(path, "run", "1 search" + f" 0 {MOST}" * k + "\n")
        lines = said[1].split("\n")
        found = [line.split(" ") for line in lines[1:-2]]
        records = {tuple(map(int, words[1:-1])): words[-1][1:] for words in found}
        if said[0] or lines[0] != f"1 box {len(records)}" or lines[-2:] != ["order 1", ""] or any(words[0] != "+" for words in found):
            raise Bad(f"a search says {said[1][:90]} ({said[0]})")
        status, checked = self.call(path, "check")
        if status or not checked.startswith("sound ") or not checked.endswith(f" records {len(records)}\n"):
            raise Bad(f"check says {checked} ({status})")
        return records

    def told_numbers(self):
        """Of the last call that was disturbed: threads asked for, refused, calls that failed, pauses, empty wakes."""
        return list(map(int, read_or(self.told).split()))


def tells(name, try_it):
    """A line for this trial, and whether it came out as wanted."""
    try:
        said = try_it()
    except Bad as bad:
        print(f"BAD  {name}: {bad}", flush=True)
        return False
    print(f"ok   {name}: {said}", flush=True)
    return True
