//! Leaflets read by hand, for the tests of this program and of any other (document 02, request 05).

/// The size that the caller names.
pub const SIZE: u32 = 80;

/// A character with its class, advance, group and ruby count.
type Read = (char, u32, u32, u32, u32);

/// An accepted text and its records in size 80.
#[derive(Debug, Clone, Copy)]
pub struct Accepted {
    /// What is shown by it.
    pub name: &'static str,
    /// The text.
    pub text: &'static str,
    read: &'static [Read],
}

/// A refused text and where its first fault is.
#[derive(Debug, Clone, Copy)]
pub struct Refused {
    /// What is wrong with it.
    pub name: &'static str,
    /// The text, which need not be UTF-8.
    pub text: &'static [u8],
    /// The byte that answer 17 names.
    pub place: usize,
}

const A: Read = ('あ', 15, 80, 0, 0);
const TON: Read = ('頓', 19, 80, 1, 4);
const PUKU: Read = ('服', 19, 80, 1, 4);

/// Texts that are accepted.
pub const ACCEPTED: [Accepted; 20] = [
    accepted("the empty text", "", &[]),
    accepted("no ruby", "あ", &[A]),
    accepted("ruby", "<ruby>頓服<rt>とんぷく</rt></ruby>", &[TON, PUKU]),
    accepted("ruby with rp", "<ruby>頓服<rp>(</rp><rt>とんぷく</rt><rp>)</rp></ruby>", &[TON, PUKU]),
    accepted("empty rp", "<ruby>頓服<rp></rp><rt>とんぷく</rt><rp></rp></ruby>", &[TON, PUKU]),
    accepted("one rp empty", "<ruby>頓服<rp>(</rp><rt>とんぷく</rt><rp></rp></ruby>", &[TON, PUKU]),
    accepted("ruby among others", "あ<ruby>頓服<rt>とんぷく</rt></ruby>あ", &[A, TON, PUKU, A]),
    accepted(
        "two in a row are two groups",
        "<ruby>漢<rt>かん</rt></ruby><ruby>字<rp>(</rp><rt>じ</rt><rp>)</rp></ruby>",
        &[('漢', 19, 80, 1, 2), ('字', 19, 80, 2, 1)],
    ),
    accepted(
        "plain text is not counted",
        "<ruby>漢<rt>かん</rt></ruby>あ<ruby>字<rt>じ</rt></ruby>",
        &[('漢', 19, 80, 1, 2), A, ('字', 19, 80, 2, 1)],
    ),
    accepted("white space in rt counts", "<ruby>漢<rt> か\tん\r\n</rt></ruby>", &[('漢', 19, 80, 1, 6)]),
    accepted(
        "white space in rp is dropped",
        "<ruby>漢<rp> \n</rp><rt>か</rt><rp>　</rp></ruby>",
        &[('漢', 19, 80, 1, 1)],
    ),
    accepted(
        "in rt any code point is one character",
        "<ruby>漢<rt>\u{0}\u{7F}（\u{D7FF}\u{E000}\u{FFFF}\u{1F600}\u{10FFFF}か\u{3099}</rt></ruby>",
        &[('漢', 19, 80, 1, 10)],
    ),
    accepted(
        "quotes and slashes are characters",
        "\"/'",
        &[('"', 27, 40, 0, 0), ('/', 27, 40, 0, 0), ('\'', 27, 40, 0, 0)],
    ),
    accepted(
        "27 before the lowest",
        "(5%—A",
        &[
            ('(', 27, 40, 0, 0),
            ('5', 27, 40, 0, 0),
            ('%', 27, 40, 0, 0),
            ('—', 27, 40, 0, 0),
            ('A', 27, 40, 0, 0),
        ],
    ),
    accepted(
        "half the size",
        "「」・。、〜",
        &[
            ('「', 1, 40, 0, 0),
            ('」', 2, 40, 0, 0),
            ('・', 5, 40, 0, 0),
            ('。', 6, 40, 0, 0),
            ('、', 7, 40, 0, 0),
            ('〜', 3, 40, 0, 0),
        ],
    ),
    accepted(
        "the whole size",
        "‼…々ーゃ№℃　ア",
        &[
            ('‼', 4, 80, 0, 0),
            ('…', 27, 40, 0, 0),
            ('々', 9, 80, 0, 0),
            ('ー', 10, 80, 0, 0),
            ('ゃ', 11, 80, 0, 0),
            ('№', 12, 80, 0, 0),
            ('℃', 13, 80, 0, 0),
            ('　', 14, 80, 0, 0),
            ('ア', 16, 80, 0, 0),
        ],
    ),
    accepted("four bytes", "𠮷", &[('𠮷', 19, 80, 0, 0)]),
    accepted("two bytes", "é", &[('é', 27, 40, 0, 0)]),
    accepted(
        "64 ruby characters",
        "<ruby>漢<rt>0123456789012345678901234567890123456789012345678901234567890123</rt></ruby>",
        &[('漢', 19, 80, 1, 64)],
    ),
    accepted(
        "16 base characters",
        "<ruby>ああああああああああああああああ<rt>か</rt></ruby>",
        &[('あ', 15, 80, 1, 1); 16],
    ),
];

/// Texts that are refused with 17.
pub const REFUSED: [Refused; 62] = [
    refused("a nested ruby in the base", "<ruby>漢<ruby>字<rt>じ</rt></ruby><rt>か</rt></ruby>", 9),
    refused("a nested ruby in rt", "<ruby>漢<rt>か<ruby>字<rt>じ</rt></ruby></rt></ruby>", 16),
    refused(
        "a nested ruby in rp",
        "<ruby>漢<rp><ruby>字<rt>じ</rt></ruby></rp><rt>か</rt><rp></rp></ruby>",
        13,
    ),
    refused("an rt in an rt", "<ruby>漢<rt>か<rt>ん</rt></rt></ruby>", 16),
    refused("an rp in an rt", "<ruby>漢<rt>か<rp>(</rp></rt></ruby>", 16),
    refused("an rt in an rp", "<ruby>漢<rp><rt>か</rt></rp></ruby>", 13),
    refused("a missing end tag of rt", "<ruby>漢<rt>かん</ruby>", 19),
    refused("a missing end tag of rp", "<ruby>漢<rp>(<rt>かん</rt><rp>)</rp></ruby>", 14),
    refused("a missing end tag of ruby", "<ruby>漢<rt>かん</rt>字", 24),
    refused("upper case", "<RUBY>漢<rt>か</rt></RUBY>", 0),
    refused("upper case in part", "あ<ruby>漢<rT>か</rt></ruby>", 12),
    refused("an attribute", "あ<ruby class=a>漢<rt>か</rt></ruby>", 3),
    refused("a space in a tag", "<ruby >漢<rt>か</rt></ruby>", 0),
    refused("a space in an end tag", "<ruby>漢<rt>か</rt ></ruby>", 16),
    refused("a space before a tag's name", "< ruby>漢<rt>か</rt></ruby>", 0),
    refused("another tag", "あ<b>い</b>", 3),
    refused("rb", "<ruby><rb>漢</rb><rt>か</rt></ruby>", 6),
    refused("rtc", "<ruby>漢<rtc>か</rtc></ruby>", 9),
    refused("a line break element", "あ<br>い", 3),
    refused("a comment", "あ<!-- --><ruby>漢<rt>か</rt></ruby>", 3),
    refused("an element closed in its start tag", "<ruby/>", 0),
    refused("a lone >", "あ>い", 3),
    refused("a > in the base", "<ruby>漢><rt>か</rt></ruby>", 9),
    refused("a > in rt", "<ruby>漢<rt>か></rt></ruby>", 16),
    refused("a > in rp", "<ruby>漢<rp>></rp><rt>か</rt><rp></rp></ruby>", 13),
    refused("a lone <", "あ<い", 3),
    refused("a < in rt", "<ruby>漢<rt>か<</rt></ruby>", 16),
    refused("&amp;", "あ&amp;い", 3),
    refused("a lone &", "<ruby>漢<rt>&</rt></ruby>", 13),
    refused("an & in rp", "<ruby>漢<rp>&lpar;</rp><rt>か</rt><rp>)</rp></ruby>", 13),
    refused("rp before rt alone", "<ruby>漢<rp>(</rp><rt>か</rt></ruby>", 31),
    refused("rp after rt alone", "<ruby>漢<rt>か</rt><rp>)</rp></ruby>", 21),
    refused("two rp before rt", "<ruby>漢<rp>(</rp><rp>(</rp><rt>か</rt><rp>)</rp></ruby>", 19),
    refused("two rt", "<ruby>漢<rt>か</rt><rt>ん</rt></ruby>", 21),
    refused("two base texts", "<ruby>漢<rt>かん</rt>字<rt>じ</rt></ruby>", 24),
    refused("text after rt", "<ruby>漢<rt>か</rt>あ</ruby>", 21),
    refused("text between rp and rt", "<ruby>漢<rp>(</rp>あ<rt>か</rt><rp>)</rp></ruby>", 19),
    refused("text after the last rp", "<ruby>漢<rp>(</rp><rt>か</rt><rp>)</rp>あ</ruby>", 41),
    refused("white space after the base", "<ruby>漢 <rt>か</rt></ruby>", 9),
    refused("white space after rt", "<ruby>漢<rt>か</rt>\n</ruby>", 21),
    refused("white space between rp and rt", "<ruby>漢<rp>(</rp> <rt>か</rt><rp>)</rp></ruby>", 19),
    refused("white space that a list has after rt", "<ruby>漢<rt>か</rt>　</ruby>", 21),
    refused("an empty base", "<ruby><rt>か</rt></ruby>", 6),
    refused("an empty rt", "<ruby>漢<rt></rt></ruby>", 13),
    refused("no rt", "<ruby>漢</ruby>", 9),
    refused("rt outside ruby", "あ<rt>か</rt>", 3),
    refused("rp outside ruby", "<rp>(</rp>", 0),
    refused("an end tag alone", "あ</ruby>", 3),
    refused("a tag cut short", "あ<r", 3),
    refused("a tag that could still become one of two", "<ruby>漢<r", 9),
    refused("an end tag cut short", "<ruby>漢<rt>か</rt", 16),
    refused("a character of no list", "あ（", 3),
    refused("a space, which no list has", "あ い", 3),
    refused("a character of no list in a base", "<ruby>漢（<rt>か</rt></ruby>", 9),
    refused("a byte order mark", "\u{FEFF}あ", 0),
    refused("a ruby element open after its start", "<ruby>", 6),
    refused("a base open at the end", "あ<ruby>漢", 12),
    refused("an rt open at the end, empty", "<ruby>漢<rt>", 13),
    refused("an rt open at the end", "<ruby>漢<rt>か", 16),
    refused("an rp open at the end", "<ruby>漢<rp>(", 14),
    refused("a ruby element open after rt", "<ruby>漢<rt>か</rt>", 21),
    refused("a ruby element open after the last rp", "<ruby>漢<rp></rp><rt>か</rt><rp></rp>", 39),
];

/// Texts that are no UTF-8.
pub const ILL_FORMED: [Refused; 24] = [
    bytes("a surrogate", b"\xE3\x81\x82\xED\xA0\x80", 3),
    bytes("the last surrogate", b"\xED\xBF\xBF", 0),
    bytes("a surrogate in rt", b"<ruby>\xE6\xBC\xA2<rt>\xED\xA0\x80</rt></ruby>", 13),
    bytes("two bytes for U+0000", b"<ruby>\xE6\xBC\xA2<rt>\xC0\x80</rt></ruby>", 13),
    bytes("two bytes for U+007F", b"\xC1\xBF", 0),
    bytes("two bytes for <", b"\xC0\xBCruby>", 0),
    bytes("three bytes for U+0000", b"<ruby>\xE6\xBC\xA2<rt>\xE0\x80\x80</rt></ruby>", 13),
    bytes("three bytes for U+07FF", b"<ruby>\xE6\xBC\xA2<rt>\xE0\x9F\xBF</rt></ruby>", 13),
    bytes("four bytes for U+0000", b"<ruby>\xE6\xBC\xA2<rt>\xF0\x80\x80\x80</rt></ruby>", 13),
    bytes("four bytes for U+FFFF", b"<ruby>\xE6\xBC\xA2<rt>\xF0\x8F\xBF\xBF</rt></ruby>", 13),
    bytes("past U+10FFFF", b"<ruby>\xE6\xBC\xA2<rt>\xF4\x90\x80\x80</rt></ruby>", 13),
    bytes("F5", b"<ruby>\xE6\xBC\xA2<rt>\xF5\x80\x80\x80</rt></ruby>", 13),
    bytes("FE", b"\xFE", 0),
    bytes("FF", b"<ruby>\xE6\xBC\xA2<rt>a\xFF</rt></ruby>", 14),
    bytes("a continuation byte alone", b"\xE3\x81\x82\x80", 3),
    bytes("a continuation byte alone in rp", b"<ruby>\xE6\xBC\xA2<rp>\xBF</rp>", 13),
    bytes("two bytes cut at the end", b"A\xC3", 1),
    bytes("three bytes cut at the end", b"\xE3\x81\x82\xE3\x81", 3),
    bytes("three bytes cut after the first", b"\xE3", 0),
    bytes("four bytes cut at the end", b"\xF0\xA0\xAE", 0),
    bytes("cut by a character", b"\xE3\x81A", 0),
    bytes("cut by a tag", b"<ruby>\xE6\xBC\xA2<rt>\xE3\x81</rt></ruby>", 13),
    bytes("cut by another", b"\xE3\x81\xE3\x81\x82", 0),
    bytes("after the base", b"<ruby>\xE6\xBC\xA2\x80<rt>a</rt></ruby>", 9),
];

const fn accepted(name: &'static str, text: &'static str, read: &'static [Read]) -> Accepted {
    Accepted { name, text, read }
}

const fn refused(name: &'static str, text: &'static str, place: usize) -> Refused {
    bytes(name, text.as_bytes(), place)
}

const fn bytes(name: &'static str, text: &'static [u8], place: usize) -> Refused {
    Refused { name, text, place }
}

impl Accepted {
    /// The words of its records.
    pub fn records(&self) -> Vec<u32> {
        let words = |&(character, class, advance, group, ruby_count): &Read| {
            [character.into(), class, SIZE, advance, group, ruby_count]
        };
        self.read.iter().flat_map(words).collect()
    }
}

/// All texts that are refused with 17.
pub fn all_refused() -> impl Iterator<Item = Refused> {
    REFUSED.into_iter().chain(ILL_FORMED)
}
