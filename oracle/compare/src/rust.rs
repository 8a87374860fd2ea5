//! `compare rust`: the reference against the published Rust, on images that are admitted. Damaged
//! images are there too: those that are still admitted are compared, the others are tallied.

use crate::images::{
    Range, admitted_image, by_hand, damaged_image, labelled_crowded, names_to_ask, of_reasons,
};
use crate::judge;
use crate::mismatch::{Mismatch, same, shown};
use crate::tally::Tally;
use generate::Rng;
use quanta_typeck::model::Model;
use reference::{Judged, Pass, Question};

/// Runs the comparison; the text is what to print, and an `Err` is a failure.
pub fn run(range: Range) -> Result<String, String> {
    let mut tally = Tally::new();
    for (label, image) in by_hand().into_iter().chain(of_reasons()) {
        compare_one(&label, &image, &mut tally)?;
    }
    for index in 0..range.images {
        let label = format!("image {index} of seed {}", range.seed);
        compare_one(&label, &admitted_image(range.seed, index), &mut tally)?;
        if index % 4 == 3 {
            let label = format!("damaged image {index} of seed {}", range.seed);
            compare_one(&label, &damaged_image(range.seed, index), &mut tally)?;
        }
        if index % 8 == 5 {
            let (label, image) = labelled_crowded(range.seed, index);
            compare_one(&label, &image, &mut tally)?;
        }
    }
    tally.finish()
}

fn compare_one(label: &str, image: &[u8], tally: &mut Tally) -> Result<(), String> {
    let judged = match reference::judge(image) {
        Ok(judged) => judged,
        Err(refusal) => {
            tally.refused(refusal);
            return Ok(());
        }
    };
    let listed: Vec<u16> = judged.list().iter().map(|record| record.code).collect();
    tally.admitted(Pass::ALL.map(|pass| judged.verdict(pass).code), &listed);
    agree(image, &judged).map_err(|_| shown(label, image, &agree_on))
}

/// Whether the two agree on an image; a refused one is not the Rust's matter.
pub fn agree_on(image: &[u8]) -> Result<(), Mismatch> {
    match reference::judge(image) {
        Ok(judged) => agree(image, &judged),
        Err(_) => Ok(()),
    }
}

/// Verdict and place of each pass, the questions, and that the image comes back from its contract.
fn agree(image: &[u8], judged: &Judged) -> Result<(), Mismatch> {
    let contract = judge::contract(image)?;
    let model = Model::build(&contract);
    for pass in Pass::ALL {
        let verdict = judged.verdict(pass);
        let what = format!("{}: code and place", pass.word());
        same(&what, (verdict.code, verdict.place), judge::verdict(pass, &model))?;
    }
    questions_agree(image, judged, &model)?;
    comes_back(image)
}

fn questions_agree(image: &[u8], judged: &Judged, model: &Model) -> Result<(), Mismatch> {
    let ours = reference::Model::of(&judged.tree);
    let mut rng = Rng::new(image.len() as u64);
    for name in names_to_ask(Some(image), &mut rng) {
        let text = String::from_utf8_lossy(&name);
        for question in Question::ALL {
            let answers = (question.ask(&ours, &name), judge::ask(question, model, &text));
            if answers.0 != answers.1 {
                same(&format!("{question:?} of {text:?}"), answers.0, answers.1)?;
            }
        }
    }
    Ok(())
}

/// The AST can only hold what the table of children allows, so an image that is admitted must come
/// back from its contract byte for byte.
fn comes_back(image: &[u8]) -> Result<(), Mismatch> {
    let again = pack::pack(&judge::unpacked(image)?);
    same("the image packed again is the image", true, again.as_deref() == Ok(image))
}
