#!/usr/bin/env python3
"""Makes src/lists/annex_a.rs: the character lists of JLReq Annex A for the eighteen classes.

    python3 lists_by_name.py FOLDER

FOLDER holds the papers, source document 003 among them. Each entry of Annex A is a code, a UCS name, a common name
and remarks, line by line. Here an entry is known by its UCS name, and its character is the one that Unicode gives
this name; no code is looked at. The proved program's lists come from the codes, so that the two can be compared.
"""

import re
import sys
import unicodedata
from pathlib import Path

# How many characters each class's list has, counted on the paper without entries of two code points.
COUNTS = {1: 16, 2: 16, 3: 4, 4: 6, 5: 3, 6: 2, 7: 2, 8: 6, 9: 6, 10: 1, 11: 40, 12: 6, 13: 32, 14: 1,
          15: 74, 16: 78, 19: 464, 27: 767}

# The annex after the lists.
NEXT_ANNEX = ["B.", "Spacing between Characters"]

MADE = Path(__file__).parent / "src" / "lists" / "annex_a.rs"

HEAD = """\
//! The characters of JLReq Annex A (source document 003) for the eighteen classes, in its order. Entries of
//! two code points are left out.
//!
//! `lists_by_name.py` makes this file from the UCS names in Annex A.

/// Each class with its characters.
pub const LISTS: [(u32, &str); 18] = [
"""

# Columns of characters on a line of the made file. A Japanese character takes two.
WIDEST = 84


def sections(lines):
    """The class, the Japanese name and the lines of each section of Annex A."""
    starts = [at for at, line in enumerate(lines)
              if re.fullmatch(r"A\.\d+", line) and lines[at + 1].endswith(f"(cl-{int(line[2:]):02})")]
    end = next(at for at in range(starts[-1], len(lines)) if lines[at:at + 2] == NEXT_ANNEX)
    for start, end in zip(starts, starts[1:] + [end]):
        japanese = lines[start + 2].rpartition("(cl-")[0]
        yield int(lines[start][2:]), japanese, lines[start + 3:end]


def character(line):
    """The character that has this line as its name, apart from a remark of the source's in round brackets."""
    name = re.sub(r" \([^()]+\)$", "", line)
    try:
        named = unicodedata.lookup(name)
    except KeyError:
        return None
    # Some sequences have names too.
    return named if len(named) == 1 else None


def listed(lines):
    """The characters named in these lines, each once: U+216B stands twice among 19's."""
    return list(dict.fromkeys(filter(None, map(character, lines))))


def literal(character):
    """The character within a string of Rust; by its number where it would not be seen, ends the string, or is one
    that an editor may replace by the like of it, as U+212B by U+00C5."""
    seen = unicodedata.category(character)[0] not in "CMZ" and character not in "\"\\"
    stays = unicodedata.normalize("NFC", character) == character
    return character if seen and stays else f"\\u{{{ord(character):X}}}"


def width(text):
    return sum(2 if unicodedata.east_asian_width(character) in "AFW" else 1 for character in text)


def entry(number, japanese, characters):
    """The lines of the made file that hold a class."""
    rows = [""]
    for shown in map(literal, characters):
        if width(rows[-1] + shown) > WIDEST:
            rows.append("")
        rows[-1] += shown
    count = "1 character" if len(characters) == 1 else f"{len(characters)} characters"
    comment = f"    // cl-{number:02}, {japanese}: {count}.\n"
    if len(rows) == 1:
        return f'{comment}    ({number}, "{rows[0]}"),\n'
    rows = "\\\n         ".join(rows)
    return f'{comment}    (\n        {number},\n        "{rows}",\n    ),\n'


def main():
    if len(sys.argv) != 2:
        sys.exit(__doc__)
    [source] = Path(sys.argv[1]).glob("003_*.txt")
    lines = [line.strip() for line in source.read_text(encoding="utf-8").split("\n")]
    lists = [(number, japanese, listed(lines)) for number, japanese, lines in sections(lines) if number in COUNTS]
    counts = {number: len(characters) for number, _, characters in lists}
    if counts != COUNTS:
        sys.exit(f"the lists have other lengths than on the paper: {counts}")
    MADE.write_text(HEAD + "".join(entry(*of_class) for of_class in lists) + "];\n", encoding="utf-8")


if __name__ == "__main__":
    main()
