//! Images of every class: written by hand, generated, damaged, and bytes that are none. What the
//! crate says is what the plain reading of document 01 says, and nothing panics.

use generate::patterns::patterns;
use generate::{Rng, admitted, damaged, limits};
use isonkaypu::{ImageRefusal, Offence, Pass, Place, Report, check, check_image};
use reference::{Question, Record};

fn record(offence: &Offence) -> Record {
    let number = |place: Option<Place>| place.map_or(0, |place| place.node) as u16;
    let entry = offence.entry.as_ref().map(|entry| entry.place);
    Record {
        code: offence.code,
        place: offence.place.node as u16,
        related: number(offence.related),
        entry: number(entry),
    }
}

fn records(report: &Report) -> Vec<Record> {
    report.offences().iter().map(record).collect()
}

/// Holds a report, or a refusal, against the plain reading.
fn hold(image: &[u8]) {
    let report = match (check_image(image), reference::judge(image)) {
        (Err(refusal), Err(number)) => return assert_eq!(refusal.number(), number),
        (Ok(report), Ok(judged)) => {
            assert_eq!(records(&report), judged.list());
            for (pass, same) in Pass::ALL.iter().copied().zip(reference::Pass::ALL) {
                let (said, read) = (report.verdict(pass), judged.verdict(same));
                let words = (said.code, said.place.node, said.place.span.start, said.place.span.end);
                assert_eq!(words, (read.code, usize::from(read.place), read.from, read.to));
            }
            report
        }
        (report, judged) => panic!("{report:?} and {:?}", judged.err()),
    };
    assert_eq!(report.doubts(), []);
    assert_eq!(report.accepted(), report.offences().is_empty());
    assert_eq!(report.image(), image);
    let tree = report.tree().expect("admitted");
    for offence in report.offences() {
        let node = tree.nodes[offence.place.node];
        assert_eq!((offence.place.span.start, offence.place.span.end), (node.from, node.to));
    }
}

#[test]
fn every_pattern_has_the_list_that_the_page_gives_it() {
    for pattern in patterns() {
        let image = pattern.tree.image();
        let report = check_image(&image).expect("admitted");
        let words: Vec<[u16; 4]> = records(&report).iter().map(Record::words).collect();
        assert_eq!(words, pattern.list(), "{}", pattern.name);
        assert_eq!(report.accepted(), pattern.list().is_empty(), "{}", pattern.name);
        hold(&image);
    }
}

/// A pattern as a contract gives the same report as its image.
#[test]
fn every_pattern_is_checked_as_a_contract() {
    for pattern in patterns() {
        let image = pattern.tree.image();
        let contract = pack::unpack(&image).expect("admitted");
        assert_eq!(check(&contract).ok(), check_image(&image).ok(), "{}", pattern.name);
    }
}

#[test]
fn every_limit_has_its_refusal() {
    for limit in limits() {
        let refusal = check_image(&limit.image).map_or_else(ImageRefusal::number, |_| 0);
        assert_eq!(refusal, limit.refusal, "{}", limit.name);
        hold(&limit.image);
    }
}

#[test]
fn generated_images() {
    for index in 0..3_000 {
        let mut rng = Rng::of_image(41, index);
        let image = admitted(&mut rng);
        hold(&image);
        hold(&damaged(&mut rng, &image));
    }
}

#[test]
fn random_bytes() {
    let mut rng = Rng::new(43);
    for _ in 0..20_000 {
        let image: Vec<u8> = (0..rng.below(400)).map(|_| rng.bits() as u8).collect();
        hold(&image);
    }
}

/// Any bytes as the image, any bytes as the name.
#[test]
fn questions() {
    let ask = [isonkaypu::is_state, isonkaypu::is_declared_asset, isonkaypu::is_known_asset];
    for index in 0..500 {
        let mut rng = Rng::of_image(47, index);
        let good = admitted(&mut rng);
        let spoilt = damaged(&mut rng, &good);
        let mut names = generate::Parts::of(&good).names;
        names.extend([b"QTOV".to_vec(), b"qtov".to_vec(), vec![], vec![0xff; 300]]);
        names.push((0..rng.below(9)).map(|_| rng.bits() as u8).collect());
        rng.shuffle(&mut names);
        for (image, name) in
            [&good, &spoilt].into_iter().flat_map(|i| names.iter().take(9).map(move |n| (i, n)))
        {
            for (ask, question) in ask.into_iter().zip(Question::ALL) {
                let said = ask(image, name).map_err(ImageRefusal::number);
                assert_eq!(said, reference::question(question, image, name));
            }
        }
    }
}

#[test]
fn many_threads_at_once() {
    let images: Vec<Vec<u8>> = (0..200).map(|index| admitted(&mut Rng::of_image(53, index))).collect();
    let alone: Vec<_> = images.iter().map(|image| check_image(image)).collect();
    std::thread::scope(|scope| {
        for from in 0..16 {
            let (images, alone) = (&images, &alone);
            scope.spawn(move || {
                for k in (0..images.len()).map(|k| (k + 13 * from) % images.len()) {
                    assert_eq!(check_image(&images[k]), alone[k]);
                }
            });
        }
    });
}
