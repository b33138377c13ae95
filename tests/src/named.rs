//! Questions with names: each has its answer written out.

use crate::answers::{Answer, Answerer, Input, Question};
use crate::compare::{Difference, must};

/// A question's name, and what was found of its answer.
pub type Named = (String, Result<(), Difference>);

/// Asks one question, whose answer must be the one wanted.
pub fn ask(question: Question, input: &Input, wanted: Answer, answerer: &mut impl Answerer) -> Result<(), Difference> {
    let given = answerer.ask(question, input);
    must(given == wanted, || format!("{question:?}: answered {given:?}, not {wanted:?}"))
}

/// The name of the first question with another answer.
pub fn first(named: Vec<Named>) -> Option<String> {
    named.into_iter().find(|(_, found)| found.is_err()).map(|(name, _)| name)
}

/// Tells what was found of each question; whether there was no difference.
pub fn tell(named: Vec<Named>, what: &str) -> bool {
    for (name, found) in &named {
        match found {
            Ok(()) => println!("as wanted: {name}"),
            Err(why) => println!("DIFFERS: {name}: {why}"),
        }
    }
    let differences = named.iter().filter(|(_, found)| found.is_err()).count();
    println!("{} {what} compared, {differences} differences", named.len());
    differences == 0
}
