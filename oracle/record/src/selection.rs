//! Which images are recorded: all patterns, the limits that are small, and generated ones until
//! each code and each refusal has come often enough; or as many of every class as are wanted.

use compare::images::{Range, admitted_image, all_classes, by_hand, damaged_image};
use compare::rust::agree_on;
use generate::CODES;

/// No image over this length is recorded, so that the whole stays small.
const LONGEST: usize = 1_600;
const SEED: u64 = 20;
/// The seed of those that are only replayed, and not kept.
const GENERATED: u64 = 21;
/// How often each code, as the first of its pass, and each refusal is wanted.
const ENOUGH: usize = 4;
/// How many clean images are wanted.
const CLEAN: usize = 15;

pub fn images() -> Result<Vec<Vec<u8>>, String> {
    let mut chosen: Vec<Vec<u8>> = by_hand().into_iter().map(|(_, image)| image).collect();
    chosen.retain(|image| image.len() <= LONGEST);
    let mut seen = [0; 256];
    for index in 0..20_000 {
        for image in [admitted_image(SEED, index), damaged_image(SEED, index)] {
            if image.len() <= LONGEST && is_wanted(&image, &mut seen) {
                chosen.push(image);
            }
        }
    }
    let rare = (1..=8).chain(CODES.map(usize::from)).find(|shown| seen[*shown] < ENOUGH);
    if let Some(rare) = rare {
        return Err(format!("{rare} came only {} times\n", seen[rare]));
    }
    agreed(chosen)
}

/// The images by hand, and `images` generated ones of every class, of any length.
pub fn generated(images: u64) -> Result<Vec<Vec<u8>>, String> {
    agreed(all_classes(Range { images, seed: GENERATED }).map(|(_, image)| image).collect())
}

/// The same images, if the published Rust gives the plain reading's verdicts on each that is admitted.
fn agreed(images: Vec<Vec<u8>>) -> Result<Vec<Vec<u8>>, String> {
    for image in &images {
        agree_on(image).map_err(|m| format!("the Rust differs: {}\n", m.what))?;
    }
    Ok(images)
}

/// Whether the image shows something that has not come often enough.
fn is_wanted(image: &[u8], seen: &mut [usize; 256]) -> bool {
    let mut wanted = false;
    for shown in shows(image) {
        let enough = if shown == 0 { CLEAN } else { ENOUGH };
        wanted |= seen[shown] < enough;
    }
    if wanted {
        shows(image).iter().for_each(|shown| seen[*shown] += 1);
    }
    wanted
}

/// The refusal, or the first code of each pass; 0 where all accept.
fn shows(image: &[u8]) -> Vec<usize> {
    match reference::judge(image) {
        Err(refusal) => vec![refusal as usize],
        Ok(judged) => {
            let codes = reference::Pass::ALL.map(|pass| judged.verdict(pass).code as usize);
            if codes == [0; 3] { vec![0] } else { codes.into_iter().filter(|c| *c != 0).collect() }
        }
    }
}
