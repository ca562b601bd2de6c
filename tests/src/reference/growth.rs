//! How the machine takes a step: what is due next, and how the tree of values grows.

use super::machine::{Container, Due, Machine, Step, Unfinished};
use super::number;
use super::records::Value;
use std::collections::HashSet;
use std::mem;

impl Machine {
    /// Takes the step that the byte at this place was judged to be.
    pub fn take(&mut self, step: Step, place: usize) {
        let is_number_over = matches!(self.due, Due::Number(_)) && !matches!(step, Step::Digit { .. });
        if is_number_over {
            self.end_scalar(place);
        }
        match step {
            Step::Whitespace => {}
            Step::Open { is_object } => self.open(is_object, place),
            Step::Close => self.close(place + 1),
            Step::Comma => self.due = self.due_behind_comma(),
            Step::Colon => self.due = Due::Value { or_end: false },
            Step::Quote { is_name } => self.begin_string(is_name, place),
            Step::Letter { left } => self.take_letter(left, place),
            Step::Digit { spelling } => self.take_digit(spelling, place),
            Step::PartOfCharacter { spelling } => self.string().spelling = spelling,
            Step::Unit(unit) => self.take_unit(unit),
            Step::EndOfString => self.end_string(place + 1),
        }
    }

    /// The root, if the text may end here.
    pub fn finish(mut self, end: usize) -> Option<Value> {
        if let Due::Number(spelling) = &self.due {
            if number::is_number(spelling) {
                self.end_scalar(end);
            }
        }
        self.root
    }

    fn open(&mut self, is_object: bool, place: usize) {
        let value = Value { start: place, end: place, name: self.name.take(), children: Vec::new() };
        let names = is_object.then(HashSet::new);
        self.open.push(Container { value, names });
        self.due = if is_object { Due::Name { or_end: true } } else { Due::Value { or_end: true } };
    }

    fn close(&mut self, end: usize) {
        let mut value = self.open.pop().expect("a container to close").value;
        value.end = end;
        self.deliver(value);
    }

    /// The scalar that is being read ends right before this place.
    fn end_scalar(&mut self, end: usize) {
        let value = Value { start: self.start, end, name: self.name.take(), children: Vec::new() };
        self.deliver(value);
    }

    /// Hands a finished value to the container around it, or to the text.
    fn deliver(&mut self, value: Value) {
        match self.open.last_mut() {
            Some(container) => container.value.children.push(value),
            None => self.root = Some(value),
        }
        self.due = Due::Separator;
    }

    fn due_behind_comma(&self) -> Due {
        let is_in_object = self.open.last().is_some_and(|container| container.names.is_some());
        if is_in_object {
            Due::Name { or_end: false }
        } else {
            Due::Value { or_end: false }
        }
    }

    fn begin_string(&mut self, is_name: bool, place: usize) {
        if is_name {
            self.name = Some(place);
        } else {
            self.start = place;
        }
        self.due = Due::String(Unfinished { is_name, units: Vec::new(), spelling: Vec::new() });
    }

    fn take_letter(&mut self, left: &'static [u8], place: usize) {
        if !matches!(self.due, Due::Word(_)) {
            self.start = place;
        }
        self.due = Due::Word(left);
        if left.is_empty() {
            self.end_scalar(place + 1);
        }
    }

    fn take_digit(&mut self, spelling: Vec<u8>, place: usize) {
        if !matches!(self.due, Due::Number(_)) {
            self.start = place;
        }
        self.due = Due::Number(spelling);
    }

    fn string(&mut self) -> &mut Unfinished {
        match &mut self.due {
            Due::String(string) => string,
            _ => panic!("characters stand in strings"),
        }
    }

    fn take_unit(&mut self, unit: u16) {
        let string = self.string();
        string.units.push(unit);
        string.spelling.clear();
    }

    fn end_string(&mut self, end: usize) {
        if !self.string().is_name {
            return self.end_scalar(end);
        }
        let units = mem::take(&mut self.string().units);
        let names = self.open.last_mut().and_then(|container| container.names.as_mut());
        names.expect("names stand in objects").insert(units);
        self.due = Due::Colon;
    }
}
