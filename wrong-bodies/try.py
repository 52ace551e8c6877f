#!/usr/bin/env python3
"""Tries the wrong bodies of this folder, or looks whether each can still be laid into its file.

    wrong-bodies/try.py            tries them all: the prover has to refuse each
    wrong-bodies/try.py CRATE ..   tries those of these crates
    wrong-bodies/try.py --look     proves nothing: is each edit's old text still in its file, exactly once?

Edits are as in crates/CRATE/must-fail, which the gate tries. A try works on a copy of the repository and changes
nothing here. It prints the edits that were let through or could not be tried, and ends with status 1 where there
is one; it takes about half a minute of one processor for each edit.
"""

import pathlib
import shutil
import subprocess
import sys
import tempfile

ROOT = pathlib.Path(__file__).resolve().parent.parent
EDITS = ROOT / "wrong-bodies"


def crates_with_edits():
    return sorted(folder.name for folder in EDITS.iterdir() if folder.is_dir())


def edits_of(crate):
    return sorted((EDITS / crate).glob("*.edit"))


def fault_of(edit, folder):
    """Says why the edit can't be laid into the crate in this folder, or nothing."""
    path, old, texts, pairs = None, None, {}, 0
    for line in edit.read_text(encoding="utf-8").split("\n"):
        if line.startswith("file: "):
            path = line.removeprefix("file: ").strip()
        elif line.startswith("old: "):
            old = line.removeprefix("old: ")
        elif line.startswith("new:"):
            new = line.removeprefix("new:").removeprefix(" ")
            if path is None or old is None:
                return "a 'new:' line stands before its 'file:' and 'old:' lines"
            if path not in texts:
                if not (folder / path).is_file():
                    return f"there is no file {path}"
                texts[path] = (folder / path).read_text(encoding="utf-8")
            found = texts[path].count(old)
            if found != 1:
                return f"an 'old:' text stands {found} times in {path}"
            texts[path] = texts[path].replace(old, new)
            old, pairs = None, pairs + 1
    return None if pairs else "it has no pair of 'old:' and 'new:'"


def look():
    """Prints the edits that can't be laid in, and says whether all can."""
    every_one = True
    for crate in crates_with_edits():
        for edit in edits_of(crate):
            fault = fault_of(edit, ROOT / "crates" / crate)
            if fault:
                print(f"{edit.relative_to(ROOT)}: {fault}")
                every_one = False
    return every_one


def lay_in(crates, copy):
    """Copies the repository without what was built, with these crates' wrong bodies in place of all other edits."""
    shutil.copytree(ROOT / "crates", copy / "crates", ignore=shutil.ignore_patterns("out", "must-fail"))
    for name in ("crates.txt", "HANDLES"):
        shutil.copy(ROOT / name, copy / name)
    for crate in crates:
        shutil.copytree(EDITS / crate, copy / "crates" / crate / "must-fail")


def tries(crates):
    """Tries the wrong bodies of these crates, prints those that weren't refused, and says whether all were."""
    count = sum(len(edits_of(crate)) for crate in crates)
    refused = 0
    with tempfile.TemporaryDirectory(prefix="wrong-bodies-") as room:
        lay_in(crates, pathlib.Path(room))
        run = subprocess.run(
            ["rt", "must-fail", *crates], cwd=room, stdout=subprocess.PIPE, stderr=subprocess.STDOUT, text=True
        )
    for line in run.stdout.split("\n"):
        if ": refused, as it must be" in line:
            refused += 1
            print(line)
        elif line and "begins with what a check kept" not in line:
            print(line)
    print(f"{refused} of {count} wrong bodies refused")
    return run.returncode == 0 and refused == count


def main(words):
    if words == ["--look"]:
        return 0 if look() else 1
    unknown = [word for word in words if word not in crates_with_edits()]
    if unknown:
        print(f"no wrong bodies of {unknown[0]} are kept here", file=sys.stderr)
        return 2
    return 0 if look() and tries(words or crates_with_edits()) else 1


if __name__ == "__main__":
    sys.exit(main(sys.argv[1:]))
