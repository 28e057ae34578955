"""JLReq Annex A (source document 003) read into lists of code points in the source's own order, with names.

An entry of the source is a line of four to six hexadecimal digits; the line after it is its UCS name. An entry of two
code points is a line <XXXX, XXXX>, and is left out."""
import glob, re

CLASSES = list(range(1, 17)) + [19, 27]
# how many entries of one code point the source has, as a check of the copying
COUNTS = dict(zip(CLASSES, [16, 16, 4, 6, 3, 2, 2, 6, 6, 1, 40, 6, 32, 1, 74, 78, 464, 767]))
# Unified_Ideograph of Unicode 15.1 (PropList.txt), with the blocks' names
BLOCKS = {0x3400: "Extension A", 0x4E00: "CJK Unified Ideographs", 0xFA0E: "twelve among the compatibility ideographs",
          0x20000: "Extension B", 0x2A700: "Extension C", 0x2B740: "Extension D", 0x2B820: "Extension E",
          0x2CEB0: "Extension F", 0x2EBF0: "Extension I", 0x30000: "Extension G", 0x31350: "Extension H"}
UNIFIED = [(0x3400, 0x4DBF), (0x4E00, 0x9FFF), (0xFA0E, 0xFA0F), (0xFA11, 0xFA11), (0xFA13, 0xFA14), (0xFA1F, 0xFA1F),
           (0xFA21, 0xFA21), (0xFA23, 0xFA24), (0xFA27, 0xFA29), (0x20000, 0x2A6DF), (0x2A700, 0x2B739),
           (0x2B740, 0x2B81D), (0x2B820, 0x2CEA1), (0x2CEB0, 0x2EBE0), (0x2EBF0, 0x2EE5D), (0x30000, 0x3134A),
           (0x31350, 0x323AF)]


def read(papers):
    """{class: (English title, Japanese title, [(code, name)])} in the order of the source."""
    text = open(glob.glob(papers + "/003_*.txt")[0], encoding="utf-8").read().split("\n")
    out, cls, i = {}, None, 0
    while i < len(text):
        heading = re.fullmatch(r"A\.(\d+)", text[i])
        if heading and re.search(r"\(cl-%02d\)" % int(heading[1]), text[i + 1]):
            cls = int(heading[1])
            out[cls] = (text[i + 1], text[i + 2], [])
            i += 3
            continue
        if text[i] == "B." and text[i + 1].startswith("Spacing between"):
            if cls is not None and len(out) > 20:
                break
        if cls is not None and re.fullmatch(r"[0-9A-F]{4,6}", text[i]):
            out[cls][2].append((int(text[i], 16), text[i + 1]))
        i += 1
    return out


def ranges(entries):
    """Entries in order, a new range wherever the source does not go on with the next code point."""
    out = []
    for code, name in entries:
        if out and out[-1][1] == code - 1:
            out[-1][1], out[-1][3] = code, name
        else:
            out.append([code, code, name, name])
    return out
