//! `compare page`: what the page's crate says of generated contracts, against the published Rust's own
//! passes: code, place and span of each pass, the first offence of each in the list, and acceptance.
//! What an image does not carry is put into the contracts at random, and both sides see it.

use crate::images::{Range, by_hand_and_admitted};
use crate::judge;
use crate::mismatch::{Mismatch, differ, same, shown};
use crate::tally::Tally;
use generate::{Rng, fill};
use isonkaypu::{ImageRefusal, Place, Report};
use quanta_ast::Contract;
use quanta_typeck::model::Model;
use reference::Pass;

/// Runs the comparison; the text is what to print, and an `Err` is a failure.
pub fn run(range: Range) -> Result<String, String> {
    let mut tally = Tally::new();
    for (label, image) in by_hand_and_admitted(range) {
        match compared(&image) {
            Ok(Ok(report)) => note(&mut tally, &report),
            Ok(Err(refusal)) => tally.refused(refusal.number()),
            Err(_) => return Err(shown(&label, &image, &|image| compared(image).map(|_| ()))),
        }
    }
    tally.finish()
}

fn note(tally: &mut Tally, report: &Report) {
    let listed: Vec<u16> = report.offences().iter().map(|offence| offence.code).collect();
    tally.admitted(Pass::ALL.map(|pass| report.verdict(of_page(pass)).code), &listed);
}

/// The report on the contract of an image, where the Rust agrees with it; of an image that is refused
/// there is no contract.
fn compared(image: &[u8]) -> Result<Result<Report, ImageRefusal>, Mismatch> {
    if reference::refusal(image) != 0 {
        return refused(image);
    }
    let mut contract = judge::unpacked(image)?;
    fill(&mut contract, &mut Rng::new(image.len() as u64));
    let report = match isonkaypu::check(&contract) {
        Ok(report) => report,
        Err(error) => return Err(differ("the limit that is passed", "none", error.to_string())),
    };
    same("the image that was checked", image, report.image())?;
    agree(image, &contract, &report)?;
    Ok(Ok(report))
}

/// An image that the reference refuses is refused with the same number.
fn refused(image: &[u8]) -> Result<Result<Report, ImageRefusal>, Mismatch> {
    match isonkaypu::check_image(image) {
        Ok(_) => Err(differ("the image", "refused", "admitted")),
        Err(refusal) => {
            same("the refusal", reference::refusal(image), refusal.number())?;
            Ok(Err(refusal))
        }
    }
}

/// Whether a report says what the Rust says of the contract of the image.
fn agree(image: &[u8], contract: &Contract, report: &Report) -> Result<(), Mismatch> {
    let by_place = judge::contract(image)?;
    let (spans, places) = (Model::build(contract), Model::build(&by_place));
    let mut accepted = true;
    for pass in Pass::ALL {
        let rust = judged(pass, &spans, &places);
        let verdict = report.verdict(of_page(pass));
        same(pass.word(), rust, said(verdict.code, verdict.place))?;
        same(&format!("the first of {} in the list", pass.word()), rust, first(pass, report))?;
        accepted &= rust == Said::default();
    }
    same("acceptance", accepted, report.accepted())
}

/// What a pass says: code, place and span, all 0 where it accepts.
type Said = (u16, usize, u32, u32);

/// The published Rust on the very contract, and its place by the contract whose spans are places.
fn judged(pass: Pass, spans: &Model, places: &Model) -> Said {
    let (code, span) = judge::code_and_span(pass, spans);
    let (_, place) = judge::verdict(pass, places);
    (code, usize::from(place), span.start, span.end)
}

fn said(code: u16, place: Place) -> Said {
    (code, place.node, place.span.start, place.span.end)
}

fn first(pass: Pass, report: &Report) -> Said {
    let of_pass = |code| isonkaypu::Pass::of_code(code) == Some(of_page(pass));
    let first = report.offences().iter().find(|offence| of_pass(offence.code));
    first.map_or(Said::default(), |first| said(first.code, first.place))
}

fn of_page(pass: Pass) -> isonkaypu::Pass {
    match pass {
        Pass::Resolve => isonkaypu::Pass::Resolve,
        Pass::Access => isonkaypu::Pass::Access,
        Pass::Linear => isonkaypu::Pass::Linear,
    }
}

#[cfg(test)]
mod tests {
    use super::*;
    use generate::patterns::patterns;

    /// A report on another contract is noticed wherever the Rust has anything else to say of it.
    #[test]
    fn the_report_on_another_contract_is_noticed() {
        let mut noticed = 0;
        let images: Vec<Vec<u8>> = patterns().iter().map(|pattern| pattern.tree.image()).collect();
        for image in &images {
            let contract = pack::unpack(image).expect("admitted");
            for other in &images {
                let report = isonkaypu::check_image(other).expect("admitted");
                let verdicts =
                    |image| reference::judge(image).map(|judged| Pass::ALL.map(|p| judged.verdict(p)));
                let agrees = agree(image, &contract, &report).is_ok();
                assert_eq!(agrees, verdicts(image) == verdicts(other));
                noticed += u32::from(!agrees);
            }
        }
        assert!(noticed > 1_000, "{noticed}");
    }

    /// Nothing compared is a failure.
    #[test]
    fn too_few_contracts_are_a_failure() {
        assert!(run(Range { images: 0, seed: 1 }).is_err());
    }
}
