//! Records (document 01, "Records and groups").

use crate::class::{class_of, Class, NoClass};
use crate::layout::RECORD_WORDS;

/// A record: a character, and how it is set.
///
/// Its fields are a sheet's words, and may be any; an edit judges them.
///
/// ```
/// use gelumbrio::{Class, Record};
///
/// let dose = "2錠".chars().map(|character| Record::new(character, 80)).collect::<Result<Vec<_>, _>>()?;
/// assert_eq!(dose[0], Record {
///     code_point: '2'.into(),
///     class: Class::Western.number(),
///     size: 80,
///     advance: 40,
///     group: 0,
///     ruby_count: 0,
/// });
/// # Ok::<(), gelumbrio::NoClass>(())
/// ```
#[derive(Debug, Clone, Copy, PartialEq, Eq, Hash)]
pub struct Record {
    /// The character's number.
    pub code_point: u32,
    /// Its class, numbered as in JLReq. [`Class`] has the names of these numbers.
    pub class: u32,
    /// Its size.
    pub size: u32,
    /// How far the next character stands from it, where no space is set between.
    pub advance: u32,
    /// The number of its group, or 0 where it is in none.
    pub group: u32,
    /// How many ruby characters stand over its group.
    pub ruby_count: u32,
}

impl Record {
    /// The record that an import makes of this character in this size, outside ruby elements: of the class that the
    /// lists give it ([`class_of`]), and with its [usual advance](Class::usual_advance).
    ///
    /// ```
    /// use gelumbrio::{NoClass, Record};
    ///
    /// assert_eq!(Record::new('、', 80)?.words(), [0x3001, 7, 80, 40, 0, 0]);
    /// assert_eq!(Record::new('（', 80), Err(NoClass { character: '（' }));
    /// # Ok::<(), NoClass>(())
    /// ```
    pub fn new(character: char, size: u32) -> Result<Record, NoClass> {
        let class = class_of(character).ok_or(NoClass { character })?;
        Ok(Record::of_class(character, class, size))
    }

    /// A record of this class, for a character that stands in more lists than one.
    ///
    /// ```
    /// use gelumbrio::{Class, Record};
    ///
    /// // By import, this bracket is a Western character, after which a line may end.
    /// let bracket = Record::of_class('(', Class::OpeningBracket, 80);
    /// assert_eq!(bracket.words(), [0x28, 1, 80, 40, 0, 0]);
    /// ```
    pub fn of_class(character: char, class: Class, size: u32) -> Record {
        let advance = class.usual_advance(size);
        Record { code_point: character.into(), class: class.number(), size, advance, group: 0, ruby_count: 0 }
    }

    /// The record in a group of this number, with so many ruby characters over the whole group. Neighbours of one
    /// number are one group.
    ///
    /// ```
    /// use gelumbrio::{NoClass, Record};
    ///
    /// // 頓服 under とんぷく.
    /// let group = ['頓', '服'].map(|character| Ok(Record::new(character, 80)?.in_group(1, 4)));
    /// let [first, second]: [Result<Record, NoClass>; 2] = group;
    /// assert_eq!((first?.words(), second?.words()), ([0x9813, 19, 80, 80, 1, 4], [0x670D, 19, 80, 80, 1, 4]));
    /// # Ok::<(), NoClass>(())
    /// ```
    pub fn in_group(self, group: u32, ruby_count: u32) -> Record {
        Record { group, ruby_count, ..self }
    }

    /// Its words, as a sheet has them.
    ///
    /// ```
    /// use gelumbrio::{NoClass, Record};
    ///
    /// let words = Record::new('錠', 80)?.words();
    /// assert_eq!((words, Record::from(words)), ([0x9320, 19, 80, 80, 0, 0], Record::new('錠', 80)?));
    /// # Ok::<(), NoClass>(())
    /// ```
    pub fn words(self) -> [u32; RECORD_WORDS] {
        [self.code_point, self.class, self.size, self.advance, self.group, self.ruby_count]
    }

    /// The character, where the code point is one's.
    ///
    /// ```
    /// use gelumbrio::Record;
    ///
    /// assert_eq!(Record::from([0x9320, 19, 80, 80, 0, 0]).character(), Some('錠'));
    /// assert_eq!(Record::from([0xD800, 19, 80, 80, 0, 0]).character(), None);
    /// ```
    pub fn character(self) -> Option<char> {
        char::from_u32(self.code_point)
    }
}

impl From<[u32; RECORD_WORDS]> for Record {
    fn from([code_point, class, size, advance, group, ruby_count]: [u32; RECORD_WORDS]) -> Record {
        Record { code_point, class, size, advance, group, ruby_count }
    }
}
