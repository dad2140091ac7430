"""The program that reads and decodes each page of a file once (bench/opening): what bench/open and bench/work are measured against."""
import os
import shutil
import subprocess
import sys

ROOT = os.path.dirname(os.path.dirname(os.path.realpath(__file__)))
USES = "open_bench: hb_space hb_frag hb_page_codec\n"


def build(top):
    """Builds it in a copy of the sources in this folder. It is proved, with what is below, but where HBPI_PROGRAM names the program."""
    shutil.copytree(f"{ROOT}/crates", f"{top}/crates", ignore=shutil.ignore_patterns("out"))
    shutil.copy(f"{ROOT}/HANDLES", top)
    with open(f"{ROOT}/crates.txt") as old, open(f"{top}/crates.txt", "w") as new:
        new.write(old.read() + USES)
    crate = f"{top}/crates/open_bench"
    os.makedirs(f"{crate}/src")
    shutil.copy(f"{ROOT}/bench/opening/main.txt", f"{crate}/src/main.rt")
    if "HBPI_PROGRAM" in os.environ:
        return unproved(top)
    subprocess.run(["rt", "run"], cwd=crate, input=b"/dev/null 0 0 0", check=True, stdout=subprocess.DEVNULL)
    return f"{crate}/out/open_bench"


def unproved(top):
    sys.path.insert(0, f"{ROOT}/trials/schedules")
    import build_program
    build_program.tools(f"{top}/tools", f"{top}/decoder")
    build_program.build(top, "open_bench", f"{top}/tools")
    return f"{top}/decoder"
