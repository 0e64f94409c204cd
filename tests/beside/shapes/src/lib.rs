mod colour;
mod other;

use colour::{Colour, Colour::*, DIM};
use std::cmp;

type Count = u16;

enum Shape<T> {
    Dot,
    Line(T),
    Frame { w: Count, h: Count },
}

struct Hidden(Vec<u8>);

impl Shape<Hidden> {
    fn parameters_are_told(&self) -> u8 {
        match self {
            Self::Dot => 0,
            Shape::Line(_) => 1,
            Shape::Frame { w: 0..=9, .. } => 2,
            Shape::Frame { w: 10.., h } if *h > 1 => 3,
            Shape::Frame { .. } => 4,
        }
    }
}

fn imports_and_constants(colour: Colour) -> u8 {
    match colour {
        Red => 0,
        Green(DIM | 200) => 1,
        Colour::Green(shade) => shade,
    }
}

fn two_lists_of_arguments(pair: (Shape<bool>, &Shape<Option<u8>>)) -> u8 {
    match pair {
        (Shape::Line(true), &Shape::Line(Some(1))) => 1,
        _ => 2,
    }
}

fn of_the_standard_library(found: cmp::Ordering) -> u8 {
    match found {
        cmp::Ordering::Less => 1,
        cmp::Ordering::Equal | cmp::Ordering::Greater => 2,
    }
}

fn no_type_is_known(it: &str) -> u8 {
    match it.len() {
        usize::MAX => 1,
        _ => 2,
    }
}

fn two_of_one_name(mine: other::Colour) -> u8 {
    match mine {
        other::Colour::Blue { ref depth, .. } => *depth,
        other::Colour::Black => 0,
    }
}

fn texts_and_slices(words: &[&str]) -> usize {
    match words {
        [] => 0,
        ["a", rest @ ..] => rest.len(),
        [.., "b" | "c"] => 1,
        [_, ..] => 2,
    }
}

fn looks_inside(hidden: std::path::Component) -> u8 {
    match hidden {
        std::path::Component::RootDir => 1,
        _ => 2,
    }
}
