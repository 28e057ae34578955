//! Which characters a class has (document 02, request 04): those of JLReq Annex A, source document 003, and
//! for class 19 besides the characters of the property Unified_Ideograph of Unicode 15.1.

mod annex_a;

use std::sync::LazyLock;

pub use annex_a::LISTS;

/// The class that every ideograph has.
const IDEOGRAPHIC: u32 = 19;
/// The class that an imported character gets whenever that list has it.
const WESTERN: u32 = 27;

/// A stretch of code points that are unified ideographs throughout.
#[derive(Debug, Clone, Copy)]
pub struct Block {
    /// What Unicode calls it.
    pub name: &'static str,
    /// Its first ideograph.
    pub first: u32,
    /// Its last ideograph in Unicode 15.1, which need not be the block's last code point.
    pub last: u32,
}

/// The blocks of unified ideographs.
pub const BLOCKS: [Block; 10] = [
    Block::new("Extension A", 0x3400, 0x4DBF),
    Block::new("CJK Unified Ideographs (URO)", 0x4E00, 0x9FFF),
    Block::new("Extension B", 0x2_0000, 0x2_A6DF),
    Block::new("Extension C", 0x2_A700, 0x2_B739),
    Block::new("Extension D", 0x2_B740, 0x2_B81D),
    Block::new("Extension E", 0x2_B820, 0x2_CEA1),
    Block::new("Extension F", 0x2_CEB0, 0x2_EBE0),
    Block::new("Extension I", 0x2_EBF0, 0x2_EE5D),
    Block::new("Extension G", 0x3_0000, 0x3_134A),
    Block::new("Extension H", 0x3_1350, 0x3_23AF),
];

/// The twelve unified ideographs of the block CJK Compatibility Ideographs, whose others are not.
pub const COMPATIBILITY: [char; 12] =
    ['﨎', '﨏', '﨑', '﨓', '﨔', '﨟', '﨡', '﨣', '﨤', '﨧', '﨨', '﨩'];

/// A character of each class that is usual in it, to make texts with.
pub const USUAL: [(u32, char); 18] = [
    (1, '「'),
    (2, '」'),
    (3, '‐'),
    (4, '!'),
    (5, '・'),
    (6, '。'),
    (7, '、'),
    (8, '—'),
    (9, '々'),
    (10, 'ー'),
    (11, 'ゃ'),
    (12, '¥'),
    (13, '%'),
    (14, '\u{3000}'),
    (15, 'あ'),
    (16, 'ア'),
    (19, '漢'),
    (27, 'A'),
];

/// The classes whose lists have a code point, class c as bit c.
type Classes = u32;

/// The code points of a page.
const PAGE: usize = 256;

/// The classes of every code point, in pages. Most pages are alike, as those without any list and those inside a
/// block of ideographs, and stand here once.
struct Table {
    /// Which page each stretch of so many code points has.
    page_of: Vec<u8>,
    pages: Vec<[Classes; PAGE]>,
}

static TABLE: LazyLock<Table> = LazyLock::new(Table::new);

impl Table {
    fn new() -> Table {
        let mut classes: Vec<Classes> = vec![0; char::MAX as usize + 1];
        for (class, characters) in LISTS {
            characters.chars().for_each(|character| classes[character as usize] |= 1 << class);
        }
        unified_ideographs().for_each(|code_point| classes[code_point as usize] |= 1 << IDEOGRAPHIC);

        let mut table = Table { page_of: Vec::new(), pages: Vec::new() };
        let (stretches, _) = classes.as_chunks::<PAGE>();
        for stretch in stretches {
            let known = table.pages.iter().position(|page| page == stretch);
            table.page_of.push(known.unwrap_or(table.pages.len()) as u8);
            if known.is_none() {
                table.pages.push(*stretch);
            }
        }
        table
    }

    /// The classes whose lists have this code point.
    fn classes(&self, code_point: u32) -> Classes {
        let (stretch, at) = (code_point as usize / PAGE, code_point as usize % PAGE);
        self.page_of.get(stretch).map_or(0, |&page| self.pages[usize::from(page)][at])
    }
}

/// The characters that Annex A lists for this class, in its order; none where the number has no list.
pub fn annex_a(class: u32) -> impl Iterator<Item = char> {
    let list = LISTS.iter().find(|(of, _)| *of == class);
    list.map_or("", |(_, characters)| characters).chars()
}

/// A usual character of this class, if the number has a list.
pub fn usual(class: u32) -> Option<char> {
    USUAL.iter().find(|(of, _)| *of == class).map(|(_, character)| *character)
}

/// Whether the list of this class has this code point. Numbers that are none of the eighteen have no list.
pub fn in_list(class: u32, code_point: u32) -> bool {
    class < Classes::BITS && TABLE.classes(code_point) >> class & 1 == 1
}

/// The class that a character gets on import: 27 if that list has it, otherwise the lowest-numbered list's,
/// if there is one.
pub fn class_of(code_point: u32) -> Option<u32> {
    let classes = TABLE.classes(code_point);
    if classes >> WESTERN & 1 == 1 {
        return Some(WESTERN);
    }
    (classes != 0).then(|| classes.trailing_zeros())
}

/// The code points to which Unicode 15.1 gives the property Unified_Ideograph.
pub fn unified_ideographs() -> impl Iterator<Item = u32> {
    let in_blocks = BLOCKS.into_iter().flat_map(|block| block.first..=block.last);
    in_blocks.chain(COMPATIBILITY.map(u32::from))
}

impl Block {
    const fn new(name: &'static str, first: u32, last: u32) -> Block {
        Block { name, first, last }
    }
}
