#!/usr/bin/env python3
"""Writes docs/INDEX.md: where each public definition stands. Run it from anywhere."""
import re
import textwrap
from pathlib import Path

TOP = Path(__file__).resolve().parent.parent
HEAD = """\
# Where each definition stands

Contracts cite these definitions. What one means is its equations, and the comment above it; none of that is
retold here. By crate, lower ones first (the order of `crates.txt`), and by file of its `specs/`: under
`fs_base` `Names` is `crates/fs_base/specs/Names.antt`. A type of the program, which a definition imports from
`Rattle.CRATE.specs.declared`, stands in that crate's `src/`.

A crate's public calls are the `pub use` lines of its `src/lib.rt`; what a call promises is its contract, and
its doc comment says what the contract doesn't. `rt lemma WORD..` finds lemmas.

`docs/index.py` writes this file.
"""
DEFINITION = re.compile(r"^\s*(?:abbrev |unfoldable )?pub (?:record |data )?([^\s:({]+)", re.M)
DEFINED = re.compile(r"^\s*(?:(?:abbrev|unfoldable) pub|pub (?:record|data)) ", re.M)


def public_in(text):
    """The definitions of a file, in order: functions, records and data types, but no fields, uses or lemmas."""
    return [DEFINITION.match(line)[1] for line in text.splitlines() if DEFINED.match(line)]


def section(crate):
    lines = []
    for file in sorted((TOP / "crates" / crate / "specs").glob("*.antt")):
        names = public_in(file.read_text(encoding="utf-8"))
        if names:
            entry = f"- `{file.stem}`: {', '.join(f'`{name}`' for name in names)}"
            lines += textwrap.wrap(entry, 110, subsequent_indent="  ", break_long_words=False, break_on_hyphens=False)
    return [f"\n## {crate}\n", *lines] if lines else []


def main():
    crates = [line.split(":")[0].split()[0] for line in (TOP / "crates.txt").read_text().splitlines() if line.strip()]
    lines = [line for crate in crates for line in section(crate)]
    (TOP / "docs" / "INDEX.md").write_text(HEAD + "\n".join(lines) + "\n", encoding="utf-8")


if __name__ == "__main__":
    main()
