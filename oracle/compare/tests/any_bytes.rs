//! The reference answers for any bytes, and its answers hang together.

use compare::images::{Range, all_classes, names_to_ask};
use generate::Rng;
use reference::tree::Tree;
use reference::{Pass, Question, RECORD_WORDS, judge, kind, list, question, refusal, report, verdict};

/// Asks everything there is to ask.
fn ask_all(image: &[u8], rng: &mut Rng) {
    let refused = refusal(image);
    assert!(refused <= 8);
    let mut words = vec![7; rng.below(40)];
    let before = words.clone();
    let listed = list(image, &mut words);
    let Ok(judged) = judge(image) else {
        assert_eq!(listed, Err(refused));
        assert_eq!(words, before);
        assert_eq!(report(image), format!("image {refused}\n"));
        return;
    };
    assert_eq!(refused, 0);
    let records = judged.list();
    let written = RECORD_WORDS * records.len();
    if words.len() < written {
        assert_eq!((listed, &words), (Err(9), &before));
    } else {
        assert_eq!(listed, Ok(records.len()));
        assert_eq!(words[written..], before[written..]);
    }
    for record in records {
        assert_eq!(usize::from(record.entry), entry_above(&judged.tree, record.place.into()), "{record:?}");
    }
    for pass in Pass::ALL {
        let code = verdict(pass, image).expect("admitted").code;
        assert_eq!(code, judged.part(pass).first().map_or(0, |r| r.code));
    }
    for name in names_to_ask(Some(image), rng).into_iter().take(9) {
        for asked in Question::ALL {
            assert!(question(asked, image, &name).is_ok());
        }
    }
}

/// Request E8 by the items, one of which every place of an offence is in: the first that ends behind it.
fn entry_above(tree: &Tree, place: usize) -> usize {
    let item = tree.children(0).find(|item| place < tree.end(*item)).expect("an item");
    if tree.kind(item) == kind::ENTRY { item } else { 0 }
}

#[test]
fn every_class_is_answered() {
    let mut rng = Rng::new(3);
    let range = Range { images: 4_000, seed: 11 };
    for (_, image) in all_classes(range) {
        ask_all(&image, &mut rng);
    }
}

#[test]
fn random_bytes_are_answered() {
    let mut rng = Rng::new(5);
    for _ in 0..20_000 {
        let length = rng.below(400);
        let mut image: Vec<u8> = (0..length).map(|_| rng.bits() as u8).collect();
        ask_all(&image, &mut rng);
        // with a header that fits, so that the tests behind it are reached
        if length > 26 {
            let nodes = rng.between(1, (length - 26) / 16 + 1);
            let names = 24 + 16 * nodes;
            // version and N, M and zero, the three offsets, the total
            let words = [1 + 65_536 * nodes, 0, 24, names, names + 2, length];
            for (k, word) in words.iter().enumerate() {
                image[4 * k..4 * k + 4].copy_from_slice(&(*word as u32).to_le_bytes());
            }
            ask_all(&image, &mut rng);
        }
    }
}
