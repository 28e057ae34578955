//! A reader of leaflets that goes through a text once, from state to state, and can misread it.

use second::lists::in_list;

use super::misimport::Misimport;
use crate::layout::CLASSES;
use crate::texts::TAGS;

/// Where in a ruby element, or outside them, a text stands.
#[derive(Debug, Clone, Copy, PartialEq, Eq)]
enum State {
    Plain,
    /// After `<ruby>`, in the base.
    Base,
    /// In the rp before the rt; whether it is empty so far.
    FirstRp(bool),
    AfterFirstRp,
    Rt,
    AfterRt,
    LastRp(bool),
    AfterLastRp,
}

#[derive(Debug, Clone, Copy, PartialEq, Eq)]
enum Element {
    Tag(&'static str),
    /// A character by its code point, with how many bytes it takes.
    Character(u32, usize),
}

/// A character that was read, and what is known of it.
#[derive(Debug, Clone, Copy)]
pub struct Character {
    /// Its code point, which may be a surrogate where that is the fault.
    pub code_point: u32,
    /// Its class, or 0.
    pub class: u32,
    /// The number of its group, or 0.
    pub group: u32,
    /// The ruby characters of its group, or 0.
    pub ruby_count: u32,
}

/// What has been read.
pub struct Reader {
    fault: Misimport,
    state: State,
    characters: Vec<Character>,
    /// How many ruby elements have been met.
    elements: u32,
    /// Where the last of them starts, in bytes and in characters.
    start: usize,
    first: usize,
    /// Whether the last of them has an rp before its rt.
    in_rps: bool,
    /// What its rt counts so far.
    ruby: u32,
}

impl Reader {
    /// The characters of a leaflet, or where it has its first fault.
    pub fn read(fault: Misimport, text: &[u8]) -> Result<Vec<Character>, usize> {
        let mut reader = Reader {
            fault,
            state: State::Plain,
            characters: Vec::new(),
            elements: 0,
            start: 0,
            first: 0,
            in_rps: false,
            ruby: 0,
        };
        let mut at = 0;
        if fault == Misimport::MarkSkipped && text.starts_with("\u{FEFF}".as_bytes()) {
            at = 3;
        }
        while at < text.len() {
            let (element, length) = reader.element(&text[at..]).map_err(|later| at + later)?;
            reader.state = reader.next(element, at).ok_or(at)?;
            at += length;
        }
        match (reader.state, fault) {
            (State::Plain, _) | (_, Misimport::OpenAtEnd) => Ok(reader.characters),
            (_, Misimport::OpenNamesStart) => Err(reader.start),
            _ => Err(text.len()),
        }
    }

    /// The first element of a text that is not empty, with its length; or how far into the text the fault is that is
    /// there instead.
    fn element(&self, text: &[u8]) -> Result<(Element, usize), usize> {
        if text[0] != b'<' {
            return self.character(text);
        }
        if let Some((tag, length)) = TAGS.iter().find_map(|tag| Some((*tag, self.tag_length(text, tag)?))) {
            return Ok((Element::Tag(tag), length));
        }
        let is_cut = !text.contains(&b'>');
        match self.fault {
            Misimport::LoneBracket if self.state == State::Rt => Ok((Element::Character(0x3C, 1), 1)),
            Misimport::TagOneLate => Err(1),
            Misimport::TagCutAtEnd if is_cut => Err(text.len()),
            _ => Err(0),
        }
    }

    /// How long the tag is with which a text starts, if it is this one.
    fn tag_length(&self, text: &[u8], tag: &str) -> Option<usize> {
        let start = text.get(..tag.len())?;
        let name = &tag.as_bytes()[..tag.len() - 1];
        match self.fault {
            Misimport::UpperCase if start.eq_ignore_ascii_case(tag.as_bytes()) => Some(tag.len()),
            Misimport::Attributes if start.starts_with(name) && start.ends_with(b" ") => {
                text.iter().position(|&byte| byte == b'>').map(|at| at + 1)
            }
            _ => (start == tag.as_bytes()).then_some(tag.len()),
        }
    }

    /// The first character of a text, by its bits.
    fn character(&self, text: &[u8]) -> Result<(Element, usize), usize> {
        let (length, bits) = match text[0] {
            first @ 0..0x80 => (1, first),
            first @ 0xC0..0xE0 => (2, first & 0x1F),
            first @ 0xE0..0xF0 => (3, first & 0xF),
            first @ 0xF0..0xF8 => (4, first & 0x7),
            _ => return Err(0),
        };
        let later = &text[1..text.len().min(length)];
        let sound = later.iter().take_while(|&byte| byte & 0xC0 == 0x80).count();
        if sound < length - 1 {
            let is_cut = sound + 1 == text.len();
            return Err(match self.fault {
                Misimport::CutAtEnd if is_cut => text.len(),
                Misimport::IllFormedOneLate => sound + 1,
                _ => 0,
            });
        }
        let code_point = later.iter().fold(u32::from(bits), |bits, byte| bits << 6 | u32::from(byte & 0x3F));
        let is_well_formed = match code_point {
            _ if code_point < [0, 0x80, 0x800, 0x1_0000][length - 1] => self.fault == Misimport::Overlong,
            0xD800..0xE000 => self.fault == Misimport::Surrogates,
            0x11_0000.. => self.fault == Misimport::PastLast,
            _ => true,
        };
        is_well_formed.then_some((Element::Character(code_point, length), length)).ok_or(0)
    }

    /// The state after an element that starts at this byte, unless no leaflet has it here.
    fn next(&mut self, element: Element, at: usize) -> Option<State> {
        match element {
            Element::Tag(tag) => self.after_tag(tag, at),
            Element::Character(code_point, length) => self.after_character(code_point, length),
        }
    }

    fn after_tag(&mut self, tag: &str, at: usize) -> Option<State> {
        let fault = self.fault;
        let has_base = self.characters.len() > self.first || fault == Misimport::EmptyBase;
        let has_ruby = self.ruby > 0 || fault == Misimport::EmptyRt;
        match (self.state, tag) {
            (State::Plain, "<ruby>") => {
                (self.start, self.first, self.in_rps, self.ruby) = (at, self.characters.len(), false, 0);
                self.elements += 1;
                Some(State::Base)
            }
            (State::Base, "<ruby>") if fault == Misimport::Nested => Some(State::Base),
            (State::Base, "<rt>") if has_base => Some(State::Rt),
            (State::Base, "<rp>") if has_base => {
                self.in_rps = true;
                Some(State::FirstRp(true))
            }
            (State::FirstRp(is_empty), "</rp>") if self.may_be_empty(is_empty) => Some(State::AfterFirstRp),
            (State::AfterFirstRp, "<rt>") => Some(State::Rt),
            (State::Rt, "</rt>") if has_ruby => Some(State::AfterRt),
            (State::AfterRt, "<rp>") if self.in_rps || fault == Misimport::RpAfterOnly => {
                Some(State::LastRp(true))
            }
            (State::AfterRt, "<rt>") if fault == Misimport::TwoRts => Some(State::Rt),
            (State::LastRp(is_empty), "</rp>") if self.may_be_empty(is_empty) => Some(State::AfterLastRp),
            (_, "</ruby>") if self.may_end() => {
                self.number_group();
                Some(State::Plain)
            }
            _ => None,
        }
    }

    /// Whether an rp may end that is empty, or is not.
    fn may_be_empty(&self, is_empty: bool) -> bool {
        !is_empty || self.fault != Misimport::EmptyRpRefused
    }

    /// Whether the ruby element may end here.
    fn may_end(&self) -> bool {
        let has_base = self.characters.len() > self.first;
        match self.state {
            State::AfterRt => !self.in_rps || self.fault == Misimport::RpBeforeOnly,
            State::AfterLastRp => true,
            State::Base => has_base && self.fault == Misimport::NoRt,
            State::Rt => self.ruby > 0 && !self.in_rps && self.fault == Misimport::EndTagLeftOut,
            _ => false,
        }
    }

    /// Gives the characters of the base their group.
    fn number_group(&mut self) {
        let group = match self.fault {
            Misimport::OneGroup => 1,
            Misimport::FromZero => self.elements - 1,
            Misimport::NumberedByRecord => self.first as u32 + 1,
            _ => self.elements,
        };
        let ruby_count = if self.fault == Misimport::ShortRubyCount { self.ruby % 256 } else { self.ruby };
        for character in &mut self.characters[self.first..] {
            (character.group, character.ruby_count) = (group, ruby_count);
        }
    }

    fn after_character(&mut self, code_point: u32, length: usize) -> Option<State> {
        let fault = self.fault;
        let is_space = [0x20, 0x09, 0x0A, 0x0D].contains(&code_point);
        let in_rt = self.state == State::Rt;
        let may_stand = match code_point {
            0x26 => fault == Misimport::Ampersand && self.state == State::Plain,
            0x3C => fault == Misimport::LoneBracket && in_rt,
            0x3E => fault == Misimport::LoneEnd && in_rt,
            _ => true,
        };
        if !may_stand {
            return None;
        }
        match self.state {
            State::Plain | State::Base => match self.class(code_point) {
                0 if fault == Misimport::UnlistedLeftOut => Some(self.state),
                0 if fault == Misimport::SpaceAfterBase && is_space && self.state == State::Base => {
                    (self.characters.len() > self.first).then_some(self.state)
                }
                0 => None,
                class => {
                    self.characters.push(Character { code_point, class, group: 0, ruby_count: 0 });
                    Some(self.state)
                }
            },
            State::Rt if fault == Misimport::UnlistedInRt && self.class(code_point) == 0 => None,
            State::Rt => {
                self.ruby += match fault {
                    Misimport::RubyInBytes => length as u32,
                    Misimport::RubyInUtf16 => 1 + u32::from(code_point > 0xFFFF),
                    Misimport::RubyWithoutSpace if is_space => 0,
                    _ => 1,
                };
                Some(State::Rt)
            }
            State::FirstRp(_) | State::LastRp(_) => {
                self.ruby += u32::from(fault == Misimport::RubyWithRp);
                let in_first = matches!(self.state, State::FirstRp(_));
                Some(if in_first { State::FirstRp(false) } else { State::LastRp(false) })
            }
            State::AfterRt => {
                let is_let_in = match fault {
                    Misimport::SpaceAfterRt => is_space,
                    Misimport::TextAfterRt => self.class(code_point) != 0,
                    _ => false,
                };
                is_let_in.then_some(State::AfterRt)
            }
            State::AfterFirstRp | State::AfterLastRp => None,
        }
    }

    /// The class of a code point, or 0.
    fn class(&self, code_point: u32) -> u32 {
        let in_order = CLASSES.into_iter().find(|&class| in_list(class, code_point)).unwrap_or(0);
        let is_western = in_list(27, code_point) && self.fault != Misimport::LowestFirst;
        if is_western {
            27
        } else {
            in_order
        }
    }
}
