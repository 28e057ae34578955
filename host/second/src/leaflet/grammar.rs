//! The grammar of accepted texts. Each function matches as much as it can at the start of some elements and hands back
//! what comes after it, or nothing where the elements do not start so.
//!
//! What a function takes can be taken in one way only: a repetition ends at the first tag, and the tag says which way
//! goes on.

use super::elements::{Element, Tag};
use crate::lists::class_of;

/// Elements in order.
type Run<'a> = &'a [Element];

/// A part of a leaflet.
#[derive(Debug, Clone, Copy, PartialEq, Eq)]
pub enum Part<'a> {
    /// A character outside ruby elements.
    Plain(char),
    /// A ruby element.
    Ruby {
        /// The characters of its base.
        base: Run<'a>,
        /// The characters of its rt.
        ruby: Run<'a>,
    },
}

/// The parts of a leaflet one after another, as far as it is one.
#[derive(Debug, Clone)]
pub struct Parts<'a> {
    rest: Run<'a>,
}

impl<'a> Parts<'a> {
    /// The parts of these elements.
    pub fn of(elements: Run<'a>) -> Parts<'a> {
        Parts { rest: elements }
    }

    /// Whether there is nothing after the parts that were taken.
    pub fn are_all(&self) -> bool {
        self.rest.is_empty()
    }
}

impl<'a> Iterator for Parts<'a> {
    type Item = Part<'a>;

    fn next(&mut self) -> Option<Part<'a>> {
        let (part, rest) = plain(self.rest).or_else(|| ruby(self.rest))?;
        self.rest = rest;
        Some(part)
    }
}

/// Whether these elements are an accepted text.
pub fn accepts(elements: Run<'_>) -> bool {
    let mut parts = Parts::of(elements);
    parts.by_ref().for_each(drop);
    parts.are_all()
}

fn plain(elements: Run<'_>) -> Option<(Part<'_>, Run<'_>)> {
    let (first, rest) = elements.split_first()?;
    let character = first.character().filter(|_| is_listed(first))?;
    Some((Part::Plain(character), rest))
}

fn ruby(elements: Run<'_>) -> Option<(Part<'_>, Run<'_>)> {
    let rest = tag(Tag::Ruby, elements)?;
    let (base, rest) = one_or_more(is_listed, rest)?;
    let (ruby, rest) = annotation(rest).or_else(|| annotation_in_rps(rest))?;
    let rest = tag(Tag::RubyEnd, rest)?;
    Some((Part::Ruby { base, ruby }, rest))
}

fn annotation_in_rps(elements: Run<'_>) -> Option<(Run<'_>, Run<'_>)> {
    let rest = rp(elements)?;
    let (ruby, rest) = annotation(rest)?;
    Some((ruby, rp(rest)?))
}

fn annotation(elements: Run<'_>) -> Option<(Run<'_>, Run<'_>)> {
    let rest = tag(Tag::Rt, elements)?;
    let (ruby, rest) = one_or_more(is_inner, rest)?;
    Some((ruby, tag(Tag::RtEnd, rest)?))
}

/// Its text is dropped.
fn rp(elements: Run<'_>) -> Option<Run<'_>> {
    let rest = tag(Tag::Rp, elements)?;
    let (_, rest) = any_number(is_inner, rest);
    tag(Tag::RpEnd, rest)
}

fn tag(tag: Tag, elements: Run<'_>) -> Option<Run<'_>> {
    let (first, rest) = elements.split_first()?;
    (*first == Element::Tag(tag)).then_some(rest)
}

fn one_or_more(is_one: fn(&Element) -> bool, elements: Run<'_>) -> Option<(Run<'_>, Run<'_>)> {
    let (run, rest) = any_number(is_one, elements);
    (!run.is_empty()).then_some((run, rest))
}

fn any_number(is_one: fn(&Element) -> bool, elements: Run<'_>) -> (Run<'_>, Run<'_>) {
    let end = elements.iter().position(|element| !is_one(element));
    elements.split_at(end.unwrap_or(elements.len()))
}

/// A character that may stand inside rt and rp.
fn is_inner(element: &Element) -> bool {
    element.character().is_some_and(|character| !['<', '>', '&'].contains(&character))
}

/// A character that may stand outside them.
fn is_listed(element: &Element) -> bool {
    is_inner(element) && element.character().is_some_and(|character| class_of(character.into()).is_some())
}
