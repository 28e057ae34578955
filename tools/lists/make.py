#!/usr/bin/env python3
"""Writes what crate `lists` has of source document 003 (JLReq, Annex A): the lists in specs/, and the program's tables.

Usage, from the repository's root: python3 tools/lists/make.py PAPERS, the folder of the source document."""
import sys
import source, tables

NAMES = {1: "opening_brackets", 2: "closing_brackets", 3: "hyphens", 4: "dividing_marks", 5: "middle_dots",
         6: "full_stops", 7: "commas", 8: "inseparable", 9: "iteration_marks", 10: "prolonged_sound_mark",
         11: "small_kana", 12: "prefixed_abbreviations", 13: "postfixed_abbreviations", 14: "full_width_space",
         15: "hiragana", 16: "katakana", 19: "ideographic", 27: "western"}
CLASS = {1: "OpeningBracket", 2: "ClosingBracket", 3: "Hyphen", 4: "DividingMark", 5: "MiddleDot", 6: "FullStop",
         7: "Comma", 8: "Inseparable", 9: "IterationMark", 10: "ProlongedSoundMark", 11: "SmallKana",
         12: "PrefixedAbbreviation", 13: "PostfixedAbbreviation", 14: "FullWidthSpace", 15: "Hiragana", 16: "Katakana",
         19: "Ideographic"}
CRATE = "crates/lists/"
MADE = "Made by tools/lists/make.py; edit that."


def shown(codes):
    """A range of the lists. Where its names are too long for a line, the last is left out."""
    a, b, first, last = codes
    if a == b:
        return f"    one 0x{a:04X} ∷  -- {first}\n"
    text = f"    range 0x{a:04X} 0x{b:04X} ∷  -- {first} .. {last}"
    return (text if len(text) < 119 else text[:text.index(" .. ")] + " ..") + "\n"


def spec_list(cls, lists):
    english, japanese, entries = lists[cls]
    once = {c: n for c, n in entries}  # a code point that the source has twice stands once, at its first place
    assert len(once) == source.COUNTS[cls], cls
    text = f"-- A.{cls} {english}, {japanese}: {len(once)}\n"
    seen = [c for c, _ in entries]
    for c in sorted({c for c in seen if seen.count(c) > 1}):
        text += f"-- the source has {c:04X} twice\n"
    text += f"unfoldable pub {NAMES[cls]} : List Range\n{NAMES[cls]} =\n"
    return text + "".join(map(shown, source.ranges(list(once.items())))) + "    []\n"


def spec_file(name, what, classes, lists, more=""):
    with open(CRATE + f"specs/{name}.antt", "w") as f:
        f.write(f"""\
-- {what}
-- A range is where the source goes on with the next code point, in the source's own order; its names are the source's.
-- {MADE}
-- Assumes nothing.
use Rattle.std.specs.Prelude.{{List, [], ◌∷◌}}
use Rattle.lists.specs.Ranges.{{Range, range, one}}

""")
        f.write("\n".join(spec_list(c, lists) for c in classes) + more)


def unified():
    text = """
-- 統合漢字, the property Unified_Ideograph of Unicode 15.1 (PropList.txt)
unfoldable pub unified_ideographs : List Range
unified_ideographs =
"""
    for a, b in source.UNIFIED:
        text += f"    one 0x{a:04X} ∷" if a == b else f"    range 0x{a:04X} 0x{b:04X} ∷"
        text += f"  -- {source.BLOCKS[a]}\n" if a in source.BLOCKS else "\n"
    return text + "    []\n"


def constant(entry):
    """The name of an entry: C with the class's number, and W where the list of class 27 has the code point."""
    own, western = entry
    return (f"C{own}" if own else "") + ("W" if western else "") or "N"


def tables_file(blocks, eights, firsts):
    """src/tables.rt: the constants that the entries are named by, and both tables."""
    named = sorted({e for row in eights for e in row if e[0]})
    constants = "\n".join(f"const {constant(e)}: Entry = entry!({CLASS[e[0]]}, {str(e[1]).lower()});\n" for e in named)
    rows = "".join(f"    [{', '.join(map(str, row))}], // {64 * i:04X}\n" for i, row in enumerate(blocks))
    entries = "".join(f"    row!({' '.join(map(constant, row))}), // {k:04X}\n" for row, k in zip(eights, firsts))
    with open(CRATE + "src/tables.rt", "w") as f:
        f.write(f"""\
// The tables. That they agree with the lists is proved (proofs/Agreement.antt).
// {MADE}
ghost use Rattle.std.specs.Prelude.{{◌≡◌, ◌<◌, [], get_or}};
ghost use Rattle.lists.specs.Entries.{{blocks, eights, nowhere}};

use crate::classes::Class;
use crate::entries::{{Entry, NOWHERE}};

macro_rules! entry {{
    ($own:ident, $western:literal) => {{
        Entry {{ own: Class::$own as u8, western: $western }}
    }};
}}

// The entries by the class's number, with W where the list of class 27 has the code point; N where no list has it.
const N: Entry = NOWHERE;

const W: Entry = Entry {{
    own: 0,
    western: true,
}};

{constants}
macro_rules! row {{
    ($($entry:ident)*) => {{ [$($entry),*] }};
}}

// For each 64 code points, from the one beside the row on, the numbers of their eights.
static BLOCKS: [[u8; 8]; {len(blocks)}] = [
{rows}];

// The eights: the entries of eight code points, from the one beside the row on. Those of 0000 to 00FF and of 3000 to
// 30FF come first; the others serve wherever a block has their number.
static EIGHTS: [[Entry; 8]; {len(eights)}] = [
{entries}];

// The number of eight `i` of block `n`. It and `eight` are looks at tables of two types: a generic one would be no more
// than the index.
#[tactic(auto, unfolding(crate::specs::Entries::blocks))]
pub(crate) fn block(n: usize, i: usize) -> u8
    requires {{ (n < {len(blocks)}) × (i < 8) }}
    ensures {{ result ≡ get_or (get_or blocks n []) i 0 }}
{{
    BLOCKS[n][i]
}}

// Entry `i` of eight `n`.
#[tactic(auto, unfolding(crate::specs::Entries::eights))]
pub(crate) fn eight(n: usize, i: usize) -> Entry
    requires {{ (n < {len(eights)}) × (i < 8) }}
    ensures {{ result ≡ get_or (get_or eights n []) i nowhere }}
{{
    EIGHTS[n][i]
}}
""")


def main():
    lists = source.read(sys.argv[1])
    left_out = "Entries of two code points are left out."
    spec_file("ListsTo16", f"JLReq Annex A, classes 1 to 16. {left_out}", range(1, 17), lists)
    examples = "JLReq Annex A, class 19, whose list there is of examples other than ideographs; and the ideographs."
    spec_file("List19", examples, [19], lists, unified())
    spec_file("List27", f"JLReq Annex A, class 27. {left_out}", [27], lists)
    blocks, eights, firsts = tables.two_level(lists)
    tables_file(blocks, eights, firsts)


main()
