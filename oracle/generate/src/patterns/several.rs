//! Rules that one item breaks more than once. Each offence is a record of its own, which no verdict
//! shows, since a verdict ends at the first. Only 21 and 23 are not here: they stand at the Name of
//! an Event or an Entry, and each of these has one.

use super::*;
use crate::ident;

pub fn all() -> Vec<Pattern> {
    let groups = [
        names(),
        locals(),
        emits(),
        deployer(),
        genesis_and_calls(),
        signers_and_clauses(),
        access(),
        linear(),
    ];
    groups.into_iter().flatten().collect()
}

fn byte() -> Node {
    ty("u8")
}

fn names() -> Vec<Pattern> {
    let field = |text, mark| marked_field(text, mark, byte());
    let fields = vec![field("f", '1'), field("f", '2'), field("g", '3'), field("g", '4'), field("f", '5')];
    let of = |text, mark| marked_param(text, mark, byte());
    let mint = |mark| apply("mint_asset", vec![]).marked(mark);
    let minting = vec![
        asset("A"),
        asset("B"),
        genesis(vec![does(mint('1')), does(apply("send", vec![mint('2')]))]),
        entry("e", vec![does(mint('3')), guard(binary(mint('4'), mint('5')))]),
    ];
    vec![
        pattern("M 20 in one State", vec![state(fields)], "2021 2043 2051"),
        pattern("M 22 in one Genesis and in one entry", minting, "221 222 223 224 225"),
        with_state("M 24 in one entry", &["s", "t"], vec![of("s", 'a'), of("t", 'b')], "24a 24b"),
        of_entry(
            "M 25 in one entry",
            vec![of("x", 'a'), of("y", 'b'), of("x", 'd'), of("y", 'f')],
            "25da 25fb",
        ),
    ]
}

fn locals() -> Vec<Pattern> {
    let read = |text, mark| ident(text).marked(mark);
    let early = vec![
        guard(binary(read("v", 'a'), read("w", 'b'))),
        local("v", read("w", 'd')),
        guard(binary(ident("v"), read("w", 'f'))),
        local("w", int()),
    ];
    let of = |text, mark| local(text, int()).marked(mark);
    let params = |text| param(text, byte());
    let lets = |first, second| vec![of(first, '1'), of(second, '2')];
    vec![
        of_entry("M 26 in one entry", early, "26a 26b 26d 26f"),
        of_entry(
            "M 27 in one entry",
            [lets("v", "w"), vec![of("v", '3'), of("w", '4')]].concat(),
            "2731 2742",
        ),
        with_state("M 28 in one entry", &["s", "t"], lets("s", "t"), "281 282"),
        of_entry("M 29 in one entry", [vec![params("p"), params("q")], lets("p", "q")].concat(), "291 292"),
    ]
}

fn emits() -> Vec<Pattern> {
    let no = |text, mark| emit(text, vec![]).marked(mark);
    let two = |mark| emit("D", vec![int(), int()]).marked(mark);
    let one = || emit("D", vec![int()]);
    let of = |in_genesis, in_entry| vec![event("D", 1), genesis(in_genesis), entry("e", in_entry)];
    let undeclared =
        of(vec![no("U", 'g'), no("V", 'h')], vec![no("U", 'a'), one(), no("V", 'b'), no("U", 'd')]);
    let unlike = of(vec![no("D", 'g'), two('h')], vec![no("D", 'a'), one(), two('b'), no("D", 'd')]);
    let by_turns =
        of(vec![no("D", 'g'), no("U", 'h')], vec![no("U", 'a'), no("D", 'b'), no("U", 'd'), two('f')]);
    vec![
        pattern("M 30 in one entry and in one Genesis", undeclared, "30a 30b 30d 30g 30h"),
        pattern("M 31 in one entry and in one Genesis", unlike, "31a 31b 31d 31g 31h"),
        pattern("M 30 and 31 by turns", by_turns, "30a 31b 30d 31f 31g 30h"),
    ]
}

fn deployer() -> Vec<Pattern> {
    let deployer = |mark| ident("deployer").marked(mark);
    let by = |text, mark| signed(text, byte(), name("deployer").marked(mark));
    let parts = vec![
        limits(binary(deployer('a'), deployer('b'))),
        node(kind::DENIES, vec![binary(deployer('d'), deployer('f'))]),
        guard(deployer('g')),
        guard(binary(deployer('h'), deployer('i'))),
    ];
    vec![
        of_entry("M 32 in one entry, body and clauses", parts, "32g 32h 32i 32a 32b 32d 32f"),
        of_entry("M 32 in one entry, signers", vec![by("p", 's'), by("q", 't')], "32s 32t 35s 35t"),
    ]
}

fn genesis_and_calls() -> Vec<Pattern> {
    let sets = |text, mark| assign(ident(text), int()).marked(mark);
    let function = |text, mark| apply(text, vec![]).marked(mark);
    let unknown = || {
        let both = binary(function("f", '2'), apply("send", vec![function("g", '3')]));
        vec![does(function("f", '1')), guard(both)]
    };
    let get = |base, mark| method(base, "get", vec![]).marked(mark);
    let outward = vec![
        param("a", ty("Q_Address")),
        does(get(ident("a"), '1')),
        does(get(caller(), '2')),
        guard(binary(get(ident("a"), '3'), get(caller(), '4'))),
    ];
    vec![
        pattern("M 33 in one Genesis", vec![genesis(vec![sets("u", 'a'), sets("w", 'b')])], "33a 33b"),
        pattern("M 34 in one Genesis", vec![genesis(unknown())], "341 342 343"),
        of_entry("M 34 in one entry", unknown(), "341 342 343"),
        of_entry("M 40 in one entry", outward, "401 402 403 404"),
    ]
}

fn signers_and_clauses() -> Vec<Pattern> {
    let by = |text, signer: &str, mark| signed(text, byte(), name(signer).marked(mark));
    let signers = vec![by("p", "u", 'a'), by("q", "s", 'n'), by("r", "u", 'b'), by("t", "w", 'd')];
    let named = |text: &str, mark| name(text).marked(mark);
    let in_writes = vec![named("u", 'a'), name("s"), named("w", 'b'), named("u", 'd')];
    let in_reads = vec![named("u", 'f'), named("w", 'g'), name("s")];
    let of_state = vec![node(kind::WRITES, in_writes), node(kind::READS, in_reads)];
    let of = |kind, text, mark| node(kind, vec![named(text, mark)]);
    let of_assets = vec![
        of(kind::CONSERVES, "u", 'a'),
        of(kind::MINTS, "u", 'b'),
        of(kind::BURNS, "u", 'd'),
        of(kind::CONSERVES, "w", 'f'),
        of(kind::MINTS, "w", 'g'),
        of(kind::BURNS, "w", 'h'),
    ];
    vec![
        with_state("M 35 in one entry", &["s"], signers, "35a 35b 35d"),
        with_state("M 36 in one Writes and in one Reads clause", &["s"], of_state, "36a 36b 36d 36f 36g"),
        of_entry("M 37, 38 and 39 in one entry", of_assets, "37a 38b 39d 37f 38g 39h"),
    ]
}

fn access() -> Vec<Pattern> {
    let read = |text, mark| ident(text).marked(mark);
    let bound = invariant(binary(read("u", 'a'), binary(ident("s"), read("w", 'b'))));
    let set = |text, mark| method(ident(text), "set", vec![]).marked(mark);
    let written = vec![
        assign(ident("s"), set("t", 'b')).marked('a'),
        assign(ident("s"), int()).marked('d'),
        does(apply("send", vec![set("s", 'f'), set("t", 'g')])),
    ];
    vec![
        pattern("M 50 in one Invariant", vec![plain_state(&["s"]), bound], "50a 50b"),
        with_state("M 51 in one entry", &["s", "t"], written, "51a 51b 51d 51f 51g"),
    ]
}

fn linear() -> Vec<Pattern> {
    let x = || ident("x");
    let of = |text, mark| marked_param(text, mark, asset_type());
    let send = |first, second| does(apply("send", vec![first, second]));
    let minted = |text, mark| local(text, apply("mint", vec![])).marked(mark);
    let aliases = vec![
        asset_x(),
        local("a", x()).marked('a'),
        local("b", checked(x())).marked('b'),
        local("d", wrapping(checked(x()))).marked('d'),
        send(int(), x()),
    ];
    let unused = vec![of("x", 'x'), of("y", 'y'), minted("m", 'm'), minted("n", 'n')];
    let twice = vec![
        of("x", 'x'),
        of("y", 'y'),
        minted("m", 'm'),
        send(x(), ident("y")),
        send(ident("y").marked('2'), x().marked('1')),
        send(ident("m"), ident("m").marked('3')),
    ];
    vec![
        of_entry("M 60 in one entry", aliases, "60a 60b 60d"),
        of_entry("M 61 in one entry", unused, "61x 61y 61m 61n"),
        of_entry("M 62 in one entry", twice, "62x1 62y2 62m3"),
    ]
}
