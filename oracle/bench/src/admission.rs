//! What admission costs, by nodes, by names and by bytes of text.

use crate::contracts::{SIZES, of_size};
use crate::timing::{Work, interleaved};
use reference::image::{Header, MAX_NODES};
use std::hint::black_box;

pub const ADMISSION: &str = "\
| image | nodes | names | text bytes | one read of the bytes, ns | admission, ns | ns a node |
|---|---|---|---|---|---|---|";

pub fn admission(image: &[u8]) -> u64 {
    isonkaypu_sys::refusal(black_box(image)) as u64
}

/// The sum of all bytes.
pub fn read(image: &[u8]) -> u64 {
    black_box(image).iter().map(|b| u64::from(*b)).sum()
}

/// Contracts of several sizes, the same nodes with more and more names, few nodes with much text,
/// and all there can be of everything.
pub fn images() -> Vec<(String, Vec<u8>)> {
    let contract = |nodes| of_size(nodes).swap_remove(0);
    let sizes = SIZES.map(contract).map(|timed| (timed.name.to_string(), timed.tree.image()));
    let names = [1, 256, 512, 1_024].map(|names| (format!("names of 5 bytes: {names}"), of_names(names)));
    let limits = generate::limits();
    let text = limits.into_iter().find(|l| l.name == "16,384 bytes of text").expect("a limit of this name");
    let most = [
        ("128 names of 128 bytes".to_string(), text.image),
        ("every maximum at once".to_string(), generate::largest()),
    ];
    sizes.into_iter().chain(names).chain(most).collect()
}

/// As many nodes as there can be, most of them Names, which have so many texts.
fn of_names(names: usize) -> Vec<u8> {
    let texts: Vec<String> = (0..names).map(|k| format!("n{k:0>4}")).collect();
    generate::of_names(&texts, MAX_NODES).image()
}

/// One read, and admission.
pub fn times(image: &[u8]) -> [f64; 2] {
    let works: [Work; 2] = [Box::new(|| read(image)), Box::new(|| admission(image))];
    interleaved(&works)
}

pub fn row(name: &str, image: &[u8], [read, admission]: [f64; 2]) -> String {
    assert_eq!(0, isonkaypu_sys::refusal(image), "{name}");
    let header = Header::of(image).expect("admitted");
    let text = header.total - header.text_offset;
    let (nodes, names, by_node) = (header.nodes, header.names, admission / header.nodes as f64);
    format!("| {name} | {nodes} | {names} | {text} | {read:.0} | {admission:.0} | {by_node:.2} |")
}
