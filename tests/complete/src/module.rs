// SPDX-License-Identifier: MIT OR Apache-2.0
//! The elements of a completed file against those given: a Buchberger completion of another kind, with all terms reduced and pairs in another sequence, shows
//! that they generate the same module and are a Gröbner basis of it.

use reference::completion::{Caps, Completion};
use reference::field::Field;
use reference::frame::Reducers;
use reference::lifting::Sum;
use reference::monomial::{Level, Parameters, UNIT};
use reference::reader::Problem;

/// One that takes more is left out.
const CAPS: Caps = Caps {
    elements: 80,
    terms: 600,
    exponent: 255,
    products: 200_000,
};

/// Whether all of these reduce to zero by the others; `None` past a cap.
fn all_in(parameters: &Parameters, elements: &Level, by: &Level) -> Option<bool> {
    let mut completion = Completion::new(parameters, CAPS);
    let field = Field::new(parameters.p);
    let reducers = Reducers::new(by);
    for element in elements {
        let mut sum = Sum::new();
        completion.add_multiple(&mut sum, 1, &UNIT, element)?;
        while let Some((_, leading)) = sum.last_key_value() {
            let leading = *leading;
            let Some(reducer) = reducers.reducer(&leading.monomial) else {
                return Some(false);
            };
            let own = &by[reducer.number as usize - 1];
            let factor = field.negate(field.divide(leading.coefficient, own[0].coefficient));
            completion.add_multiple(&mut sum, factor, &reducer.quotient, own)?;
        }
    }
    Some(true)
}

/// What is wrong with the elements that were printed, as a module and as a basis of it; `None` past a cap.
pub fn same_module(given: &Problem, printed: &Level) -> Option<Result<(), &'static str>> {
    let parameters = &given.parameters;
    let basis = Completion::new(parameters, CAPS).complete(given.elements.clone())?;
    if !all_in(parameters, printed, &basis)? {
        return Some(Err("an element that was added is not in the module"));
    }
    // then each leading monomial of the module is divisible by one of the printed elements'
    if !all_in(parameters, &basis, printed)? {
        return Some(Err("the printed elements are no Gröbner basis"));
    }
    Some(Ok(()))
}

/// What is wrong with the elements that were added: the first elements are those given, each other one is monic, and no leading monomial before it divides
/// its own.
pub fn added_rightly(given: &Level, printed: &Level) -> Result<(), &'static str> {
    if !printed.starts_with(given) {
        return Err("the elements given are not the first ones printed");
    }
    for at in given.len()..printed.len() {
        let leading = &printed[at][0];
        if leading.coefficient != 1 {
            return Err("an element that was added is not monic");
        }
        let before = Reducers::new(&printed[..at]);
        if before.reducer(&leading.monomial).is_some() {
            return Err("a leading monomial before it divides that of an element that was added");
        }
    }
    Ok(())
}
