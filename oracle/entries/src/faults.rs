//! Entries with one fault each.

use crate::interpret::holds;
use crate::shape::{Class, Shape};
use model::grammar::{NONE, NUMBER, RUN, TEXT};

/// Copies of a shape with one fault each.
pub fn faulty(shape: &Shape) -> Vec<Shape> {
    let mut copies = here(shape);
    let mut inside = |inner: Vec<Shape>, again: &dyn Fn(Box<Shape>) -> Shape| {
        copies.extend(inner.into_iter().map(|copy| again(Box::new(copy))));
    };
    match shape {
        Shape::When(bit, inner) => inside(faulty(inner), &|copy| Shape::When(*bit, copy)),
        Shape::Is(flags, inner) => inside(faulty(inner), &|copy| Shape::Is(*flags, copy)),
        Shape::Given(inner) => inside(faulty(inner), &Shape::Given),
        Shape::Filled(inner) => inside(faulty(inner), &Shape::Filled),
        Shape::Replacing(a, b) => {
            inside(faulty_replace(a), &|copy| Shape::Replacing(copy, b.clone()));
            inside(faulty(b), &|copy| Shape::Replacing(a.clone(), copy));
        }
        Shape::Later(a, b) => {
            inside(faulty(a), &|copy| Shape::Later(copy, b.clone()));
            inside(faulty(b), &|copy| Shape::Later(a.clone(), copy));
        }
        Shape::Then(a, b) => {
            inside(faulty(a), &|copy| Shape::Then(copy, b.clone()));
            inside(faulty(b), &|copy| Shape::Then(a.clone(), copy));
        }
        Shape::Both(a, b) => {
            inside(faulty(a), &|copy| Shape::Both(copy, b.clone()));
            inside(faulty(b), &|copy| Shape::Both(a.clone(), copy));
        }
        _ => {}
    }
    copies
}

/// Where the next child is REPLACE, which writes nothing: before or after a word is the same for it.
fn faulty_replace(shape: &Shape) -> Vec<Shape> {
    let same = match shape {
        Shape::Then(a, b) => swapped(a, b),
        _ => None,
    };
    let copies = faulty(shape).into_iter();
    copies.filter(|copy| Some(copy) != same.as_ref()).collect()
}

/// The faults at the top of a shape.
fn here(shape: &Shape) -> Vec<Shape> {
    let slot = |kinds: &[u16]| Shape::Slot(Class::One(kinds.to_vec()));
    match shape {
        Shape::Token | Shape::Ident | Shape::Said(_) => vec![Shape::Nothing],
        Shape::Word(number) => vec![Shape::Nothing, Shape::Line(*number)],
        Shape::Line(number) => vec![Shape::Nothing, Shape::Word(*number)],
        Shape::When(bit, inner) => vec![
            (**inner).clone(),
            Shape::When(bit + 1, inner.clone()),
            Shape::When(15, inner.clone()),
        ],
        Shape::Is(flags, inner) => vec![(**inner).clone(), Shape::Is(flags + 1, inner.clone())],
        Shape::Given(inner) | Shape::Filled(inner) => vec![(**inner).clone()],
        Shape::Commas(class) => vec![Shape::Row(class.clone())],
        Shape::Row(class) => vec![Shape::Commas(class.clone())],
        Shape::Lines(class, _) => vec![Shape::Row(class.clone())],
        Shape::Tuples(class) => vec![Shape::Commas(Class::List(Box::new(class.clone())))],
        Shape::Replacing(a, b) => vec![(**a).clone(), (**b).clone()],
        Shape::Decimal => vec![slot(&[NONE, NUMBER])],
        Shape::Brackets => vec![slot(&[NUMBER])],
        Shape::Quoted => vec![slot(&[TEXT])],
        Shape::Rowid => vec![slot(&[NONE, TEXT])],
        Shape::Source => vec![Shape::Then(
            Box::new(slot(&[RUN])),
            Box::new(slot(&[NONE, TEXT])),
        )],
        Shape::Later(a, b) => vec![Shape::Then(a.clone(), b.clone())],
        Shape::Then(a, b) => swapped(a, b).into_iter().collect(),
        Shape::Both(a, b) => vec![Shape::Then(a.clone(), b.clone())],
        _ => vec![],
    }
}

/// Two neighbours in the other order, where that holds the children in the same one.
fn swapped(a: &Shape, b: &Shape) -> Option<Shape> {
    let (next, rest) = match b {
        Shape::Then(next, rest) => (&**next, Some(rest)),
        _ => (b, None),
    };
    let exclusive = matches!((a, next), (Shape::Is(..), Shape::Is(..)));
    if holds(a) && holds(next) || exclusive || a == next {
        return None;
    }
    let (a, next) = (Box::new(a.clone()), Box::new(next.clone()));
    Some(match rest {
        Some(rest) => Shape::Then(next, Box::new(Shape::Then(a, rest.clone()))),
        None => Shape::Then(next, a),
    })
}
