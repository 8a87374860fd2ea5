//! docs/RULES.md, "Readings that document 01 leaves open", and what else only a full list shows.

use super::*;
use crate::{ident, leaf, number};

pub fn all() -> Vec<Pattern> {
    let groups = [
        declared_names(),
        locals(),
        signatures(),
        emits(),
        deployer(),
        genesis_rules(),
        clause_rules(),
        outward_calls(),
        addresses(),
        writes_rules(),
        aliases_and_rows(),
        marks_and_occurrences(),
        burned_and_used(),
        burned_above(),
    ];
    groups.into_iter().flatten().collect()
}

fn byte() -> Node {
    ty("u8")
}

fn declared_names() -> Vec<Pattern> {
    let x = |mark| marked_param("x", mark, byte());
    let f = |mark| marked_field("f", mark, byte());
    let three = ['a', 'b', 'd'].map(x).to_vec();
    let blocks = vec![state(vec![f('1')]), entry("e", vec![]), state(vec![f('2'), f('3')])];
    let entries = vec![entry("d", vec![param("x", byte())]), entry("e", three)];
    vec![
        with_state("S 24 and 25 on one parameter", &["x"], vec![x('a'), x('b')], "24a 24b 25ba"),
        pattern("S 25 is related to the first, and by entry", entries, "25ba 25da"),
        pattern("S 20 across State blocks, related to the first", blocks, "2021 2031"),
    ]
}

fn locals() -> Vec<Pattern> {
    let v = |mark| local("v", int()).marked(mark);
    let shadowing = vec![marked_param("v", 'p', byte()), v('1'), v('2')];
    let read = |mark| ident("v").marked(mark);
    let reading = vec![
        guard(binary(read('a'), read('b'))),
        local("v", read('d')).marked('1'),
        local("v", ident("v")).marked('2'),
        guard(ident("v")),
        v('3'),
    ];
    vec![
        with_state("S 27, 28, 29 on one Let", &["v"], shadowing, "24p 281 291 2721 282 292"),
        of_entry("S 26 for each Ident, none after the Let", reading, "26a 26b 26d 2721 2731"),
    ]
}

/// An entry `e` whose Name bears the mark, with parameters of these types.
fn entry_of_types(mark: char, types: Vec<Node>) -> Node {
    let params = types.into_iter().zip(["a", "b", "d"]).map(|(t, n)| param(n, t));
    let parts = std::iter::once(name("e").marked(mark)).chain(params);
    node(kind::ENTRY, parts.collect())
}

fn signatures() -> Vec<Pattern> {
    let e = entry_of_types;
    let t_u = || vec![ty("T"), ty("U")];
    let other_names = vec![name("e").marked('2'), param("y", ty("T")), param("z", ty("U"))];
    let by_types = vec![e('1', t_u()), node(kind::ENTRY, other_names), e('3', vec![ty("T")]), e('4', t_u())];
    let quorum = |m, n| vec![ty_of("Q", vec![m_of_n(m, n), number("2")])];
    let numbers = vec![ty_of("Q", vec![number("2"), number("3"), number("2")])];
    let of_quorums =
        vec![e('1', quorum("2", "3")), e('2', quorum("2", "30")), e('3', quorum("2", "3")), e('4', numbers)];
    let apart = vec![
        e('1', vec![ty_of("T", vec![ty("a"), ty("b")])]),
        e('2', vec![ty_of("T", vec![ty_of("a", vec![ty("b")])])]),
        e('3', vec![ty("T"), ty("a"), ty("b")]),
    ];
    vec![
        pattern("S 23 by types, parameter names apart, related to the first", by_types, "2321 2341"),
        pattern("S 23 with type arguments and m of n", of_quorums, "2331"),
        pattern("S 23 tells T<a,b> from T<a<b>> from T,a,b", apart, ""),
    ]
}

fn emits() -> Vec<Pattern> {
    let emits = |count, mark| emit("D", (0..count).map(|_| int()).collect()).marked(mark);
    let declared_again = |statement| {
        let first = node(kind::EVENT, vec![name("D").marked('1')]);
        let again = node(kind::EVENT, vec![name("D").marked('2'), leaf(kind::EVENT_PARAM)]);
        vec![first, entry("e", vec![statement]), again]
    };
    let both = vec![genesis(vec![emits(0, 'g')]), entry("e", vec![emits(0, 'e')])];
    vec![
        pattern("S 31 by the last declaration, even after the Emit", declared_again(emits(1, 'm')), "2121"),
        pattern("S 31 not by the first declaration", declared_again(emits(0, 'm')), "2121 31m"),
        pattern("S Emits in entries before genesis", both, "30e 30g"),
    ]
}

fn deployer() -> Vec<Pattern> {
    let deployer = |mark| ident("deployer").marked(mark);
    let everywhere = vec![
        signed("p", byte(), name("deployer").marked('s')),
        node(kind::AFTER, vec![leaf(kind::DURATION), deployer('a')]),
        node(kind::AFTER, vec![deployer('b'), deployer('d')]),
        node(kind::DENIES, vec![deployer('f')]),
        guard(binary(deployer('g'), deployer('h'))),
    ];
    let stored = genesis(vec![assign(field(int(), "x"), ident("deployer"))]);
    let items = vec![
        invariant(binary(deployer('a'), deployer('b'))),
        entry("e", vec![guard(deployer('d'))]),
        invariant(deployer('f')),
    ];
    vec![
        pattern(
            "S 32 in an entry: signers, body, clauses as they stand; then 35",
            vec![entry("e", everywhere), stored],
            "32s 32g 32h 32a 32b 32d 32f 35s",
        ),
        pattern(
            "S 32 and 50 for each Ident of an Invariant, items in order",
            items,
            "32a 32b 32d 32f 50a 50b 50f",
        ),
    ]
}

fn genesis_rules() -> Vec<Pattern> {
    let sets = |target, mark| assign(target, int()).marked(mark);
    let statements = vec![
        does(apply("f", vec![]).marked('1')),
        sets(field(field(ident("u"), "a"), "b"), 'u'),
        sets(field(apply("u", vec![]).marked('2'), "a"), 'n'),
        assign(ident("s"), ident("u")),
        sets(ident("v"), 'v'),
    ];
    let mint = |arguments, mark| apply("mint_asset", arguments).marked(mark);
    let minting = entry("e", vec![does(mint(vec![mint(vec![], '2')], '1'))]);
    vec![
        pattern(
            "S 33 by the target's root; all 33s, then the 34s",
            vec![genesis(statements), plain_state(&["s"])],
            "33u 33v 341 342",
        ),
        pattern(
            "S 22 counts items, not names, and nested calls",
            vec![asset("A"), minting, asset("A")],
            "221 222",
        ),
    ]
}

fn clause_rules() -> Vec<Pattern> {
    let clause = |kind, text, mark| node(kind, vec![name(text).marked(mark)]);
    let asset_type = |arguments| ty_of("Map", vec![ty("K"), ty_of("Q_Asset", arguments)]);
    let parts = vec![
        param("p", asset_type(vec![ty("T"), ty("V")])),
        param("q", asset_type(vec![number("3"), ty("W")])),
        clause(kind::READS, "r", 'r'),
        conserves("QTOV"),
        conserves("T"),
        clause(kind::CONSERVES, "W", 'w'),
        clause(kind::CONSERVES, "V", 'v'),
        clause(kind::BURNS, "QTOV", 'b'),
        clause(kind::MINTS, "T", 'm'),
        conserves("A"),
        of_asset(kind::MINTS, "A"),
        clause(kind::WRITES, "A", 'a'),
    ];
    vec![pattern(
        "S clauses in their order; known by QTOV and by an inner type",
        vec![entry("e", parts), asset("A")],
        "36r 37w 37v 39b 38m 36a",
    )]
}

fn on(base: Node, text: &str, mark: char) -> Node {
    does(method(base, text, vec![]).marked(mark))
}

fn outward_calls() -> Vec<Pattern> {
    let parts = vec![
        param("a", ty("Q_Address")),
        on(wrapping(field(checked(ident("a")), "f")), "f", '1'),
        on(caller(), "get", '2'),
        on(apply("a", vec![]).marked('4'), "g", '3'),
    ];
    vec![of_entry("S all 40s of an entry, then its 34s", parts, "401 402 404 341 343 344")]
}

fn addresses() -> Vec<Pattern> {
    let address = || ty("Q_Address");
    let declared = |first, last| {
        let fields = vec![marked_field("a", '1', first), marked_field("a", '2', last)];
        vec![state(fields), entry("e", vec![on(ident("a"), "get", 'k')])]
    };
    let shadowed = vec![marked_param("a", 'p', byte()), on(ident("a"), "get", 'k')];
    let uncancelled = vec![state(vec![field_decl("a", address())]), entry("e", shadowed)];
    vec![
        pattern("S 40 by the last declared type: no address", declared(address(), byte()), "2021"),
        pattern("S 40 by the last declared type: an address", declared(byte(), address()), "2021 40k"),
        pattern("S a parameter of another type cancels no address", uncancelled, "24p 40k"),
    ]
}

fn writes_rules() -> Vec<Pattern> {
    let set = |base, mark| method(base, "set", vec![]).marked(mark);
    let in_order = vec![
        assign(field(set(ident("t"), 't'), "f"), set(checked(field(ident("s"), "f")), 'v')),
        assign(field(ident("s"), "f"), set(ident("t"), 'u')).marked('a'),
    ];
    let reads_s = || node(kind::READS, vec![name("s")]);
    let declared = vec![
        writes(&["t"]),
        reads_s(),
        writes(&["s"]),
        assign(ident("s"), int()),
        assign(ident("t"), int()),
        does(method(ident("s"), "get", vec![])),
    ];
    let undeclared = vec![reads_s(), assign(ident("s"), int()).marked('a')];
    let entries = vec![plain_state(&["s", "t"]), entry("e", declared), entry("f", undeclared)];
    vec![
        with_state("S an Assign before the Calls of its statement", &["s", "t"], in_order, "51t 51v 51a 51u"),
        pattern("S declared in any Writes clause of the entry, and in no other", entries, "51a"),
    ]
}

fn send(arguments: Vec<Node>) -> Node {
    does(apply("send", arguments))
}

fn aliases_and_rows() -> Vec<Pattern> {
    let alias = vec![asset_x(), local("y", wrapping(ident("x"))).marked('l')];
    let tracked = vec![
        asset_x(),
        local("b", checked(apply("mint", vec![]))).marked('b'),
        local("d", method(int(), "split", vec![])).marked('d'),
        local("f", ident("d")).marked('f'),
        send(vec![ident("d")]),
    ];
    vec![
        of_entry("S 60 does not end the entry, an alias is no use", alias, "60l 61x"),
        of_entry("S tracked Lets, an alias of one, rows in order", tracked, "60f 61x 61b"),
    ]
}

/// An asset `T`, and an entry that burns it.
fn burning(name: &'static str, params: Vec<Node>, statements: Vec<Node>, list: &'static str) -> Pattern {
    let parts = [params, vec![burns("T")], statements].concat();
    pattern(name, vec![asset("T"), entry("e", parts)], list)
}

fn marks_and_occurrences() -> Vec<Pattern> {
    let x = |mark, ty| marked_param("x", mark, ty);
    let marked_twice = vec![x('1', asset_of("T")), x('2', asset_of("T"))];
    let second = || ident("x").marked('o');
    let used_twice = vec![x('1', asset_type()), x('2', asset_type()), send(vec![ident("x"), second()])];
    let inner = apply("send", vec![ident("x")]);
    let by_number = vec![asset_x(), send(vec![inner, checked(second()), ident("x")])];
    let no_inner = vec![x('x', ty_of("Q_Asset", vec![number("3"), ty("T")]))];
    vec![
        burning("S marks on the first row of a name", marked_twice, vec![], "2521 621 612"),
        of_entry("S occurrences on the last row of a name", used_twice, "2521 611 622o"),
        of_entry("S the second occurrence is by the Ident's number", by_number, "62xo"),
        burning("S Q_Asset<3, T> has no inner type", no_inner, vec![], "61x"),
    ]
}

/// Request E4: related is "the first counted occurrence when the row has a burn mark".
fn burned_and_used() -> Vec<Pattern> {
    let x = || ident("x");
    let first = || x().marked('1');
    let burned = || vec![marked_param("x", 'x', asset_of("T"))];
    let of = |name, statements| burning(name, burned(), statements, "62x1");
    let inner = apply("send", vec![first()]);
    let looked_at = method(int(), "get", vec![x()]);
    vec![
        of("S burned and used twice: the first", vec![send(vec![first(), x()])]),
        of("S burned and used three times: the first", vec![send(vec![first(), x()]), send(vec![x()])]),
        of("S burned: the first is by the Ident's number", vec![send(vec![inner, x()])]),
        of("S burned: what is no use is not the first", vec![send(vec![looked_at, first()])]),
    ]
}

/// .. "the second when it has none, and 0 if there is no such occurrence": marks are on the first
/// row of the name, occurrences on the last.
fn burned_above() -> Vec<Pattern> {
    let x = |mark, ty| marked_param("x", mark, ty);
    let twice = || send(vec![ident("x"), ident("x").marked('o')]);
    let burned = |last| vec![x('1', asset_of("T")), x('2', last)];
    let minted = local("x", apply("mint", vec![])).marked('2');
    let first_alone = vec![x('1', asset_of("T"))];
    vec![
        burning(
            "S the other parameter is burned: the second",
            burned(asset_type()),
            vec![twice()],
            "2521 622o",
        ),
        burning(
            "S the parameter is burned, not the Let: the second",
            first_alone,
            vec![minted, twice()],
            "292 622o",
        ),
        burning("S two marks and no occurrence: 0", burned(asset_of("T")), vec![twice()], "2521 621 622o"),
    ]
}
