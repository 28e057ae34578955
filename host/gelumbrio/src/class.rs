//! The classes of characters, and their published lists (document 01, "Records and groups", and document 02, request
//! 04).

use std::error::Error;
use std::fmt;

use crate::raw;

/// A class of characters (文字クラス), numbered as in JLReq.
///
/// A record holds its class as a number, since a sheet may hold any. This names the eighteen that there are:
///
/// ```
/// use gelumbrio::{class_of, Class};
///
/// assert_eq!(class_of('、'), Some(Class::Comma));
/// assert_eq!(Class::Comma.number(), 7);
/// assert_eq!(Class::from_number(7), Some(Class::Comma));
/// assert_eq!(Class::from_number(17), None);
/// ```
#[derive(Debug, Clone, Copy, PartialEq, Eq, PartialOrd, Ord, Hash)]
#[repr(u32)]
pub enum Class {
    /// 始め括弧類, opening brackets.
    OpeningBracket = 1,
    /// 終わり括弧類, closing brackets.
    ClosingBracket = 2,
    /// ハイフン類, hyphens.
    Hyphen = 3,
    /// 区切り約物, dividing punctuation marks.
    DividingMark = 4,
    /// 中点類, middle dots.
    MiddleDot = 5,
    /// 句点類, full stops.
    FullStop = 6,
    /// 読点類, commas.
    Comma = 7,
    /// 分離禁止文字, inseparable characters.
    Inseparable = 8,
    /// 繰返し記号, iteration marks.
    IterationMark = 9,
    /// 長音記号, the prolonged sound mark.
    ProlongedSoundMark = 10,
    /// 小書きの仮名, small kana.
    SmallKana = 11,
    /// 前置省略記号, prefixed abbreviations, such as ¥.
    PrefixedAbbreviation = 12,
    /// 後置省略記号, postfixed abbreviations, such as ℃.
    PostfixedAbbreviation = 13,
    /// 和字間隔, the full-width ideographic space.
    FullWidthSpace = 14,
    /// 平仮名, hiragana.
    Hiragana = 15,
    /// 片仮名, katakana.
    Katakana = 16,
    /// 漢字等, ideographic and other characters.
    Ideographic = 19,
    /// 欧文用文字, Western characters.
    Western = 27,
}

impl Class {
    /// All eighteen, by number.
    ///
    /// ```
    /// use gelumbrio::{in_list, Class};
    ///
    /// // A character may stand in more than one list.
    /// let lists = Class::ALL.into_iter().filter(|&class| in_list(class, '(')).collect::<Vec<_>>();
    /// assert_eq!(lists, [Class::OpeningBracket, Class::Western]);
    /// ```
    pub const ALL: [Class; 18] = [
        Class::OpeningBracket,
        Class::ClosingBracket,
        Class::Hyphen,
        Class::DividingMark,
        Class::MiddleDot,
        Class::FullStop,
        Class::Comma,
        Class::Inseparable,
        Class::IterationMark,
        Class::ProlongedSoundMark,
        Class::SmallKana,
        Class::PrefixedAbbreviation,
        Class::PostfixedAbbreviation,
        Class::FullWidthSpace,
        Class::Hiragana,
        Class::Katakana,
        Class::Ideographic,
        Class::Western,
    ];

    /// The class of this number, if it is one's.
    ///
    /// ```
    /// use gelumbrio::Class;
    ///
    /// assert_eq!([13, 18, 19].map(Class::from_number), [
    ///     Some(Class::PostfixedAbbreviation),
    ///     None,
    ///     Some(Class::Ideographic),
    /// ]);
    /// ```
    pub fn from_number(number: u32) -> Option<Class> {
        Class::ALL.into_iter().find(|class| class.number() == number)
    }

    /// Its number, as records have it.
    ///
    /// ```
    /// use gelumbrio::Class;
    ///
    /// assert_eq!(Class::Western.number(), 27);
    /// ```
    pub const fn number(self) -> u32 {
        self as u32
    }

    /// The advance that an import gives a record of this class and size: half of the size to brackets, hyphens, middle
    /// dots, full stops, commas and Western characters, all of it to the others. Hyphens and Western characters alone
    /// may have another.
    ///
    /// ```
    /// use gelumbrio::Class;
    ///
    /// assert_eq!(Class::Western.usual_advance(80), 40);
    /// assert_eq!(Class::Ideographic.usual_advance(80), 80);
    /// ```
    pub const fn usual_advance(self, size: u32) -> u32 {
        match self {
            Class::OpeningBracket
            | Class::ClosingBracket
            | Class::Hyphen
            | Class::MiddleDot
            | Class::FullStop
            | Class::Comma
            | Class::Western => size / 2,
            _ => size,
        }
    }
}

/// A character that has no class, as no published list has it.
///
/// ```
/// use gelumbrio::Record;
///
/// let no_class = Record::new('（', 80).unwrap_err();
/// assert_eq!(no_class.character, '（');
/// assert_eq!(no_class.to_string(), "'（' (U+FF08) has no class, as it is in no published list");
/// ```
#[derive(Debug, Clone, Copy, PartialEq, Eq, Hash)]
pub struct NoClass {
    /// The character.
    pub character: char,
}

impl fmt::Display for NoClass {
    fn fmt(&self, f: &mut fmt::Formatter<'_>) -> fmt::Result {
        let &NoClass { character } = self;
        write!(
            f,
            "{character:?} (U+{:04X}) has no class, as it is in no published list",
            u32::from(character)
        )
    }
}

impl Error for NoClass {}

/// Whether the published list of this class has this character. A record needs it: an edit refuses one whose
/// class's list lacks its character, with [`Refusal::NotListed`](crate::Refusal::NotListed).
///
/// The lists are those of JLReq Annex A; that of ideographic characters has every unified ideograph of Unicode 15.1
/// besides. A character may stand in more than one, and in none:
///
/// ```
/// use gelumbrio::{in_list, Class};
///
/// assert!(in_list(Class::Comma, '、') && !in_list(Class::Ideographic, '、'));
/// assert!(in_list(Class::OpeningBracket, '(') && in_list(Class::Western, '('));
/// assert!(!in_list(Class::OpeningBracket, '（'));
/// ```
pub fn in_list(class: Class, character: char) -> bool {
    raw::in_list(class.number(), character.into()) != 0
}

/// The class that the published lists give this character: Western if that list has it, otherwise the lowest-numbered
/// list's, if one has it.
///
/// ```
/// use gelumbrio::{class_of, Class};
///
/// let classes = ['漢', '、', '(', '（'].map(class_of);
/// assert_eq!(classes, [Some(Class::Ideographic), Some(Class::Comma), Some(Class::Western), None]);
/// ```
pub fn class_of(character: char) -> Option<Class> {
    Class::from_number(raw::class_of(character.into()))
}
