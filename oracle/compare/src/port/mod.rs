//! `compare port`: the reference against the proved library, by groups of its functions, on images
//! of every class.

mod buffers;
mod lists;
mod questions;
mod why;

use crate::images::{Range, all_classes};
use crate::mismatch::{Mismatch, same, shown};
use isonkaypu_sys::Answer;
use reference::{Judged, Pass};

/// An image, and what the reference makes of it.
struct Asked<'a> {
    image: &'a [u8],
    judged: Result<Judged<'a>, u8>,
}

/// A group of functions by its name, and how it is compared on an image.
type Group = (&'static str, fn(&Asked) -> Result<(), Mismatch>);

const GROUPS: [Group; 11] = [
    ("refusal", refusal),
    ("questions", questions::questions),
    ("verdicts", verdicts),
    ("resolve", |asked| verdict(asked, Pass::Resolve, isonkaypu_sys::resolve)),
    ("access", |asked| verdict(asked, Pass::Access, isonkaypu_sys::access)),
    ("linear", |asked| verdict(asked, Pass::Linear, isonkaypu_sys::linear)),
    ("list", lists::full),
    ("resolve_list", |asked| lists::part(asked, Pass::Resolve, isonkaypu_sys::resolve_list)),
    ("access_list", |asked| lists::part(asked, Pass::Access, isonkaypu_sys::access_list)),
    ("linear_list", |asked| lists::part(asked, Pass::Linear, isonkaypu_sys::linear_list)),
    ("why", why::reasons),
];

/// Compares the groups asked for, or all of them.
pub fn run(what: Option<&[&str]>, range: Range) -> Result<String, String> {
    let groups = chosen(what)?;
    let check = |image: &[u8]| {
        let asked = Asked { image, judged: reference::judge(image) };
        groups.iter().try_for_each(|(_, agrees)| agrees(&asked))
    };
    let mut count = 0;
    for (label, image) in all_classes(range) {
        check(&image).map_err(|_| shown(&label, &image, &check))?;
        count += 1;
    }
    Ok(format!("{count} images, {}: no mismatch\n", names(&groups)))
}

fn names(groups: &[Group]) -> String {
    groups.iter().map(|(name, _)| *name).collect::<Vec<_>>().join(", ")
}

/// A word that names no group is an error: what was meant by it would go uncompared.
fn chosen(what: Option<&[&str]>) -> Result<Vec<Group>, String> {
    let Some(words) = what else {
        return Ok(GROUPS.to_vec());
    };
    let group = |word: &&str| {
        let found = GROUPS.into_iter().find(|(name, _)| name == word);
        found.ok_or_else(|| format!("no group is called `{word}`; there are {}\n", names(&GROUPS)))
    };
    words.iter().map(group).collect()
}

impl Asked<'_> {
    /// 0 where the image is admitted.
    fn refusal(&self) -> usize {
        usize::from(self.refused())
    }

    fn refused(&self) -> u8 {
        self.judged.as_ref().err().copied().unwrap_or(0)
    }

    /// The reference's verdict as the library gives it.
    fn answer(&self, pass: Pass) -> Answer {
        match &self.judged {
            Ok(judged) => {
                let verdict = judged.verdict(pass);
                Answer {
                    number: usize::from(verdict.code),
                    place: usize::from(verdict.place),
                    from: verdict.from as usize,
                    to: verdict.to as usize,
                }
            }
            Err(_) => Answer { number: self.refusal(), place: 0, from: 0, to: 0 },
        }
    }
}

fn refusal(asked: &Asked) -> Result<(), Mismatch> {
    same("refusal", asked.refusal(), isonkaypu_sys::refusal(asked.image))
}

fn verdict(asked: &Asked, pass: Pass, given: fn(&[u8]) -> Answer) -> Result<(), Mismatch> {
    same(pass.word(), asked.answer(pass), given(asked.image))
}

fn verdicts(asked: &Asked) -> Result<(), Mismatch> {
    same("verdicts", Pass::ALL.map(|pass| asked.answer(pass)), isonkaypu_sys::verdicts(asked.image))
}
