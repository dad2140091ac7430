#!/usr/bin/env python3
"""Puts, deletes and other bodies spliced into the bytes of random pages, beside `change` and `encode`.

    trials/pages/random_splices.py COUNT [SEED]

It copies the repository's sources into a temporary folder, puts splices.txt there as one more program, builds it unproved and
runs it on COUNT pages. The status is 0 where each splice leaves the bytes that `encode` writes of the page that `change` makes.
"""
import os
import shutil
import subprocess
import sys
import tempfile

HERE = os.path.dirname(os.path.abspath(__file__))
ROOT = os.path.dirname(os.path.dirname(HERE))
USES = "hb_space hb_frag hb_layout hb_ops hb_page_codec hb_view"


def main():
    count, seed = int(sys.argv[1]), int(sys.argv[2]) if len(sys.argv) > 2 else 1
    with tempfile.TemporaryDirectory() as top:
        for folder in ("crates", "tools"):
            shutil.copytree(os.path.join(ROOT, folder), os.path.join(top, folder), ignore=shutil.ignore_patterns("out"))
        with open(os.path.join(ROOT, "crates.txt")) as f:
            lines = f.read()
        with open(os.path.join(top, "crates.txt"), "w") as f:
            f.write(lines + f"splice_trial: {USES}\n")
        place = os.path.join(top, "crates", "splice_trial", "src")
        os.makedirs(place)
        with open(os.path.join(HERE, "splices.txt")) as f:
            text = f.read().replace("COUNT", str(count)).replace("SEED", str(seed))
        with open(os.path.join(place, "main.rt"), "w") as f:
            f.write(text)
        program = os.path.join(top, "splices")
        subprocess.run([sys.executable, os.path.join(top, "tools", "unproved.py"), "--fast", "splice_trial", program], check=True)
        said = subprocess.run([program], capture_output=True, text=True).stdout
    print(said, end="")
    sys.exit("none differs" not in said)


if __name__ == "__main__":
    main()
