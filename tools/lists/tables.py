"""The program's tables, from the lists. An entry of a code point is the class other than 27 whose list has it, or None
(no code point is in two of them: asserted here), and whether the list of class 27 has it."""
import source

LOW = 0x3400  # from here on only Unified_Ideograph
NOWHERE = (None, False)


def entries(lists):
    own, western = {}, {x for x, _ in lists[27][2]}
    for c in source.CLASSES[:-1]:
        for x in {x for x, _ in lists[c][2]}:
            assert x not in own, hex(x)
            own[x] = c
    return {x: (own.get(x), x in western) for x in own.keys() | western}


def eight(e, k):
    """The entries of the eight code points from k on."""
    return tuple(e.get(k + i, NOWHERE) for i in range(8))


def two_level(lists):
    """blocks: for each 64 code points the numbers of their eights. eights: eight entries each; 0 to 31 are those of
    0000 to 00FF, and 32 to 63 those of 3000 to 30FF, in order. firsts: the first code point that each eight is of."""
    e = entries(lists)
    firsts = [8 * g for g in range(32)] + [0x3000 + 8 * g for g in range(32)]
    eights = [eight(e, k) for k in firsts]
    number = {}
    for i, row in enumerate(eights):
        number.setdefault(row, i)
    blocks = []
    for b in range(LOW // 64):
        numbers = []
        for k in range(64 * b, 64 * b + 64, 8):
            row = eight(e, k)
            if row not in number:
                number[row] = len(eights)
                eights.append(row)
                firsts.append(k)
            numbers.append(number[row])
        blocks.append(numbers)
    assert set(eights[0]) == {NOWHERE} and len(eights) <= 256
    return blocks, eights, firsts
