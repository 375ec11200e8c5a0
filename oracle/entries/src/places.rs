//! The places that an entry holds, against the model's slots.

use crate::shape::{Class, Shape, Table};
use model::grammar::{self, row, Slot, NONE, NUMBER, RUN, TEXT, TOKEN};

/// How many entries have slots in the model, if all of them hold the same.
pub fn agree(table: &Table) -> Result<usize, String> {
    let mut count = 0;
    for (&kind, shape) in table {
        let Some(row) = row(kind) else {
            continue;
        };
        let mut held = vec![];
        places(shape, &mut held)?;
        let held: Vec<Class> = held.into_iter().map(sorted).collect();
        let slots: Vec<Class> = row.slots.iter().map(|slot| sorted(class(slot))).collect();
        if held != slots {
            return Err(format!(
                "kind {kind} holds {held:?}, in the model {slots:?}"
            ));
        }
        count += 1;
    }
    Ok(count)
}

fn list(class: &Class) -> Class {
    Class::List(Box::new(class.clone()))
}

/// In the order in which they are held.
fn places(shape: &Shape, held: &mut Vec<Class>) -> Result<(), String> {
    let one = |kinds: &[u16]| Class::One(kinds.to_vec());
    match shape {
        Shape::When(_, inner) | Shape::Is(_, inner) => places(inner, held)?,
        Shape::Given(inner) | Shape::Filled(inner) => places(inner, held)?,
        Shape::Replacing(yes, no) => held.extend(the_same(yes, no)?),
        Shape::Later(first, second) | Shape::Then(first, second) | Shape::Both(first, second) => {
            places(first, held)?;
            places(second, held)?;
        }
        Shape::Slot(class) => held.push(class.clone()),
        Shape::Commas(class) | Shape::Row(class) | Shape::Lines(class, _) => held.push(list(class)),
        Shape::Tuples(class) => held.push(list(&list(class))),
        Shape::Decimal => held.push(one(&[NONE, NUMBER])),
        Shape::Brackets => held.push(Class::Small),
        Shape::Quoted => held.push(one(&[TEXT])),
        Shape::Rowid => held.push(one(&[NONE, TEXT])),
        Shape::Source => held.extend([one(&[RUN]), one(&[NONE, TEXT])]),
        _ => {}
    }
    Ok(())
}

/// What two shapes hold, one of which is written.
fn the_same(yes: &Shape, no: &Shape) -> Result<Vec<Class>, String> {
    let (mut of_yes, mut of_no) = (vec![], vec![]);
    places(yes, &mut of_yes)?;
    places(no, &mut of_no)?;
    match of_yes == of_no {
        true => Ok(of_no),
        false => Err(format!("{of_yes:?} with REPLACE, {of_no:?} without")),
    }
}

fn class(slot: &Slot) -> Class {
    let mut kinds = match slot.class {
        grammar::Class::Run => vec![RUN],
        grammar::Class::Text => vec![TEXT],
        grammar::Class::Token => vec![TOKEN],
        grammar::Class::Number(0, 255) => return Class::Small,
        grammar::Class::Number(..) => vec![NUMBER],
        grammar::Class::Kinds(first, last) => [RUN].into_iter().chain(first..=last).collect(),
        grammar::Class::List(element) => return list(&class(element)),
        grammar::Class::Root | grammar::Class::RootElement => vec![],
    };
    if slot.optional {
        kinds.push(NONE);
    }
    Class::One(kinds)
}

fn sorted(class: Class) -> Class {
    match class {
        Class::One(mut kinds) => {
            kinds.sort();
            Class::One(kinds)
        }
        Class::List(class) => Class::List(Box::new(sorted(*class))),
        _ => class,
    }
}
