//! The three questions about a name.

use super::Asked;
use crate::images::names_to_ask;
use crate::mismatch::{Mismatch, same};
use generate::Rng;
use reference::{Model, Question};

/// How many names are asked about: the library admits the image again for every question.
const NAMES: usize = 24;

pub fn questions(asked: &Asked) -> Result<(), Mismatch> {
    let model = asked.judged.as_ref().ok().map(|judged| Model::of(&judged.tree));
    for name in names(asked) {
        for question in Question::ALL {
            let yes = model.as_ref().is_some_and(|model| question.ask(model, &name));
            agree(question, asked, &name, yes)?;
        }
    }
    Ok(())
}

/// Some of the names to ask about, bytes of any value and a name too long among them.
fn names(asked: &Asked) -> Vec<Vec<u8>> {
    let mut rng = Rng::new(asked.image.len() as u64);
    let mut names = names_to_ask(asked.judged.is_ok().then_some(asked.image), &mut rng);
    names.push((0..rng.below(9)).map(|_| rng.bits() as u8).collect());
    names.push(vec![b'a'; 129]);
    rng.shuffle(&mut names);
    names.truncate(NAMES);
    names
}

fn agree(question: Question, asked: &Asked, name: &[u8], yes: bool) -> Result<(), Mismatch> {
    let ask = match question {
        Question::IsState => isonkaypu_sys::is_state,
        Question::IsDeclaredAsset => isonkaypu_sys::is_declared_asset,
        Question::IsKnownAsset => isonkaypu_sys::is_known_asset,
    };
    let what = || format!("{question:?} of {:?}", String::from_utf8_lossy(name));
    let expected = (asked.refusal(), u8::from(yes));
    let got = ask(asked.image, name);
    if got == expected { Ok(()) } else { same(&what(), expected, got) }
}
