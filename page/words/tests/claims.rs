//! What the file of words claims beside its examples is true: each claim that an editor could get
//! wrong, asked of the proved checker.

use isonkaypu::{check_image, is_known_asset};

/// The codes that a contract with these items has.
fn codes(items: &str) -> Vec<u16> {
    let text = format!("contract C {{ {items} }}");
    let report = check_image(&example::image(&text)).unwrap_or_else(|refusal| panic!("{refusal}: {text}"));
    report.offences().iter().map(|offence| offence.code).collect()
}

/// The codes of an entry with a lot `lot` of `M`, an address `to` and fields `s` and `t`, which it
/// writes.
fn with_lot(clauses: &str, body: &str) -> Vec<u16> {
    codes(&format!(
        "asset M; state {{ s: Q_Asset<M>; t: u64; }} event E(a: u64);
         entry e(lot: Q_Asset<M>, to: Q_Address) writes s, t {clauses} {{ {body} }}"
    ))
}

fn refusal(text: &str) -> Option<u8> {
    check_image(&example::image(text)).err().map(|refusal| refusal.number())
}

#[test]
fn a_use_of_a_lot() {
    for used in
        ["send(to, lot);", "s.merge(lot);", "s = lot;", "t = s.get(s.set(lot));", "send(to, checked(lot));"]
    {
        assert_eq!(with_lot("", used), [], "{used}");
    }
    assert_eq!(with_lot("burns M", ""), []);
    for unused in
        ["emit E(lot);", "s.get(lot);", "s.contains(lot);", "lot.split(5);", "t = lot + 1;", "guard lot > 1;"]
    {
        assert_eq!(with_lot("", unused), [61], "{unused}");
    }
    // `has` is no use, and is refused on top
    assert_eq!(with_lot("", "s.has(lot);"), [34, 61]);
    assert_eq!(with_lot("", "s = checked(lot);"), [61]);
}

#[test]
fn burns_never_mends_a_let() {
    let split = |clauses: &str, after: &str| {
        with_lot(clauses, &format!("send(to, lot); let part = s.split(1); {after}"))
    };
    assert_eq!(split("", ""), [61]);
    assert_eq!(split("burns M", ""), [62, 61]);
    assert_eq!(split("", "send(to, part);"), []);
    assert_eq!(codes("asset M; entry e() burns M { let made = mint(1); }"), [61]);
}

/// The entry's text from the related place of its first 62 on; nothing where the number is 0.
fn from_related(lots: &str, clauses: &str, body: &str) -> Option<String> {
    let text = format!("contract C {{ asset M; asset N; entry e({lots}) {clauses} {{ {body} }} }}");
    let report = check_image(&example::image(&text)).unwrap_or_else(|refusal| panic!("{refusal}: {text}"));
    let offence = report.offences().iter().find(|offence| offence.code == 62).expect("a 62");
    offence.related.map(|place| text[place.span.start as usize..].to_string())
}

#[test]
fn the_related_number_of_62() {
    let means = &words::code(62).expect("62").means;
    let claim = "the first one in the statements where a `burns` clause uses the lot, else the second there.";
    assert!(means.contains(claim), "{means}");
    let lot = "lot: Q_Asset<M>";
    let [one, two, three] =
        [1, 2, 3].map(|n| (1..=n).map(|i| format!("send({i}, lot);")).collect::<String>());
    for (clauses, body, before) in [
        ("burns M", &one, "send(1, "),
        ("burns M", &three, "send(1, "),
        ("burns N burns M", &two, "send(1, "),
        ("", &two, "send(2, "),
        ("", &three, "send(2, "),
        ("burns N", &two, "send(2, "),
    ] {
        let (_, expected) = body.split_once(before).expect("the use");
        let said = from_related(lot, clauses, body).expect("a related place");
        assert!(said.starts_with(expected), "{clauses} {body}: {said}");
    }
}

#[test]
fn the_related_number_of_62_is_0_where_burns_alone_makes_two_uses() {
    let means = &words::code(62).expect("62").means;
    let claim =
        "Where that alone makes two uses, the related number is 0, since no statement is one of them.";
    assert!(means.contains(claim), "{means}");
    for body in ["", "send(1, lot);"] {
        assert_eq!(from_related("lot: Q_Asset<M>, lot: Q_Asset<M>", "burns M", body), None, "{body}");
        assert_eq!(from_related("lot: Q_Asset<M>, lot: Q_Asset<N>", "burns M burns N", body), None, "{body}");
    }
}

#[test]
fn burns_counts_for_the_first_lot_of_a_name() {
    let entry = |types: [&str; 2], clauses: &str, body: &str| {
        let [first, second] = types;
        let lots = format!("lot: Q_Asset<{first}>, lot: Q_Asset<{second}>");
        codes(&format!("asset M; asset N; entry e({lots}) {clauses} {{ {body} }}"))
    };
    assert_eq!(entry(["M", "N"], "burns M", "send(1, lot);"), [25]);
    // the first is not burned itself, and yet the mark is its
    assert_eq!(entry(["N", "M"], "burns M", "send(1, lot);"), [25]);
    assert_eq!(entry(["M", "M"], "burns M", "send(1, lot);"), [25, 62]);
    assert_eq!(entry(["M", "M"], "burns M", ""), [25, 62, 61]);
    assert_eq!(entry(["M", "N"], "burns M", "send(1, lot); send(2, lot);"), [25, 62]);
}

/// "To destroy a part and hand out the rest, keep the clause, split off what is handed out, and send that."
#[test]
fn a_part_is_destroyed_and_the_rest_handed_out() {
    assert_eq!(with_lot("burns M", "let part = lot.split(1); send(to, part);"), []);
    assert_eq!(with_lot("burns M", "let part = lot.split(1); send(to, part); send(to, lot);"), [62]);
}

#[test]
fn with_60_mended_a_61_may_vanish() {
    assert_eq!(with_lot("", "let box = lot; send(to, box);"), [60, 61]);
    assert_eq!(with_lot("", "send(to, lot);"), []);
    // "uses are counted for the last one of a name"
    let twice = "entry e(lot: Q_Asset<M>, lot: Q_Asset<M>, to: Q_Address) { send(to, lot); }";
    assert_eq!(codes(twice), [25, 61]);
}

#[test]
fn used_before_its_let() {
    for early in ["let x = x;", "x = 1; let x = 2;", "guard x > 1; let x = 2;", "let y = x; let x = 1;"] {
        assert_eq!(codes(&format!("entry e() {{ {early} }}")), [26], "{early}");
    }
    assert_eq!(codes("state { s: u64; } genesis { s = x; let x = 1; let x = 2; }"), []);
}

#[test]
fn events() {
    // the last declaration counts, even one below the `emit`
    assert_eq!(codes("event E(); entry e() { emit E(1); } event E(a: u64);"), [21]);
    assert_eq!(codes("event E(); entry e() { emit E(); } event E(a: u64);"), [21, 31]);
    assert_eq!(codes("genesis { emit E(); }"), [30]);
    // a mend can make a new fault: the event is declared now, with another number of values
    assert_eq!(codes("genesis { emit E(1); }"), [30]);
    assert_eq!(codes("event E(); genesis { emit E(1); }"), [31]);
}

#[test]
fn deployer() {
    assert_eq!(codes("state { owner: Q_Address = deployer; }"), []);
    assert_eq!(codes("state { owner: Q_Address; } genesis { owner = deployer; }"), []);
    for clause in ["limits deployer == 1", "denies deployer == 1", "after deployer"] {
        assert_eq!(codes(&format!("entry e() {clause} {{ }}")), [32], "{clause}");
    }
    assert_eq!(codes("entry e(a: u64 signed_by deployer) { }"), [32, 35]);
    assert_eq!(codes("invariant deployer == 1;"), [32, 50]);
}

#[test]
fn what_can_be_called() {
    let entry = words::code(34).expect("34");
    for function in ["send", "send_asset", "mint", "mint_asset"] {
        assert_eq!(codes(&format!("entry e() {{ {function}(1); }}")), []);
        assert!(
            entry.means.contains(&format!("`{function}`")) && entry.mend.contains(&format!("`{function}`"))
        );
    }
    let methods = ["get", "contains", "split", "set", "remove", "merge", "insert", "debit", "credit"];
    for method in methods {
        assert_eq!(codes(&format!("state {{ s: u64; }} entry e() writes s {{ s.{method}(1); }}")), []);
        assert!(entry.means.contains(&format!("`{method}`")) && entry.mend.contains(&format!("`{method}`")));
    }
    assert_eq!(codes("state { s: u64; } entry e() { s.has(1); }"), [34]);
    assert_eq!(codes("genesis { tell(1); }"), [34]);
    assert_eq!(codes("entry other() { } entry e() { other(); }"), [34]);
}

#[test]
fn known_and_declared_assets() {
    let clause =
        |clause: &str| codes(&format!("state {{ s: Map<u64, Q_Asset<K>>; }} entry e() {clause} {{ }}"));
    assert_eq!([clause("conserves QTOV"), clause("conserves K")], [[], []]);
    assert_eq!(
        [clause("mints QTOV"), clause("mints K"), clause("burns QTOV"), clause("burns K")],
        [[38], [38], [39], [39]]
    );
    assert_eq!(clause("conserves Other"), [37]);
    assert_eq!(codes("asset M; entry e() conserves M mints M burns M { }"), []);
    assert_eq!(is_known_asset(&example::image("contract C { }"), b"QTOV"), Ok(true));
}

#[test]
fn addresses_are_not_called() {
    let body = |body: &str| {
        codes(&format!("state {{ owner: Q_Address; }} entry e(to: Q_Address) writes owner {{ {body} }}"))
    };
    assert_eq!(body("to.get(1);"), [40]);
    assert_eq!(body("owner.set(to);"), [40]);
    assert_eq!(body("caller.pay(5);"), [40, 34]);
    assert_eq!(body("to(5);"), [40, 34]);
    assert_eq!(body("owner = to;"), []);
}

#[test]
fn what_changes_a_field() {
    let body =
        |clauses: &str, body: &str| codes(&format!("state {{ s: u64; }} entry e() {clauses} {{ {body} }}"));
    let entry = words::code(51).expect("51");
    for method in ["merge", "split", "credit", "debit", "insert", "remove", "set"] {
        let call = format!("s.{method}(1);");
        assert_eq!(
            [body("", &call), body("reads s", &call), body("writes s", &call)],
            [vec![51], vec![51], vec![]]
        );
        assert!(entry.means.contains(&format!("`{method}`")));
    }
    assert_eq!([body("", "s.get(1);"), body("", "s.contains(1);")], [[], []]);
    assert_eq!([body("", "s = 1;"), body("", "s.count = 1;")], [[51], [51]]);
    assert_eq!(body("", "s.get(1).split(5);"), []);
}

#[test]
fn an_asset_that_is_declared_twice_counts_as_two() {
    assert_eq!(codes("asset M; asset M; genesis { mint_asset(1, 2); }"), [22]);
    assert_eq!(codes("asset M; genesis { mint_asset(1, 2); }"), []);
}

#[test]
fn names_that_an_image_refuses() {
    let field = |name: &str| refusal(&format!("contract C {{ state {{ {name}: u64; }} }}"));
    assert_eq!([field("mg3"), field("_3"), field(&"a".repeat(128))], [None; 3]);
    assert_eq!([field("für"), field(&"a".repeat(129))], [Some(5); 2]);
    assert_eq!(field("3mg"), Some(6));
    assert_eq!(refusal("contract C { state { q: Quorum<3>; } }"), None);
}

#[test]
fn contracts_that_an_image_refuses() {
    let sum = |terms: usize| refusal(&format!("contract C {{ invariant {}a; }}", "a + ".repeat(terms - 1)));
    assert_eq!([sum(63), sum(64)], [None, Some(7)]);
    let names = |count: usize| (0..count).map(|i| format!("asset n{i};")).collect::<String>();
    let of_names = |count: usize| refusal(&format!("contract C {{ {} }}", names(count)));
    assert_eq!([of_names(1_023), of_names(1_024)], [None, Some(3)]);
}

/// The maxima that the file names are those of the image form.
#[test]
fn maxima() {
    use form::image::{HEADER, MAX_ANCESTORS, MAX_NAME, MAX_NAMES, MAX_NODES, MAX_TEXT, NODE};
    let longest = HEADER + NODE * MAX_NODES + 2 * (MAX_NAMES + 1) + MAX_TEXT;
    let said = |number: u16, maximum: usize| {
        let thousands = format!("{},{:03}", maximum / 1_000, maximum % 1_000);
        let shown = if maximum < 1_000 { maximum.to_string() } else { thousands };
        let entry = words::refusal(number).expect("a refusal");
        assert!(entry.means.contains(&shown), "{number} does not say {shown}");
    };
    let maxima = [
        (1, longest),
        (1, HEADER),
        (3, MAX_NODES),
        (3, MAX_NAMES),
        (5, MAX_NAME),
        (5, MAX_TEXT),
        (7, MAX_ANCESTORS),
    ];
    for (number, maximum) in maxima {
        said(number, maximum);
    }
    // the report's list has 32,768 words, four to a record
    said(9, 32_768 / 4);
}

/// "4,096 words are enough for every image": two for each node, and each clause or use has a node of its own.
#[test]
fn room_for_every_use() {
    assert_eq!(2 * form::image::MAX_NODES, 4_096);
    let how = &words::refusal(10).expect("10").how;
    assert!(how.contains("two words for each clause and each use; 4,096 words are enough"), "{how}");
}

/// "the line `61 5 0 2 50 51` is about the lot at node 5", and every other number is no lot's.
#[test]
fn the_number_of_a_lot() {
    let how = &words::refusal(13).expect("13").how;
    assert!(how.contains("the line `61 5 0 2 50 51` is about the lot at node 5"), "{how}");
    let image = example::image("contract c { entry e(x: Q_Asset) { } }");
    let lots: Vec<usize> = isonkaypu::lots(&image).expect("lots").iter().map(|lot| lot.place.node).collect();
    assert_eq!(lots, [5]);
    assert_eq!(isonkaypu::why(&image, 4), Err(isonkaypu::WhyError::NoLot(4)));
}

/// "it is in a state field, an event, genesis or an invariant", where it stands in no entry; and there are both sorts.
#[test]
fn what_stands_outside_of_the_entries() {
    let line = words::lines().iter().find(|line| line.word == "in entry NAME").expect("the line");
    assert!(
        line.means.contains("it is in a state field, an event, genesis or an invariant."),
        "{}",
        line.means
    );
    let outside = [form::kind::STATE, form::kind::EVENT, form::kind::GENESIS, form::kind::INVARIANT];
    let more = "contract C { asset M; asset M; state { m: u8; } event E(); invariant deployer == 1; \
                genesis { m.fly(); x = 1; emit F(); emit E(1); mint_asset(1); } entry e() { emit F(); } }";
    let texts = words::codes().iter().map(|entry| entry.before.as_str()).chain([more]);
    let mut met = std::collections::BTreeSet::new();
    for text in texts {
        let report = check_image(&example::image(text)).expect("an image");
        let tree = report.tree().expect("a tree");
        for offence in report.offences() {
            let around = |item: &usize| (*item..tree.end(*item)).contains(&offence.place.node);
            let item = tree.kind(tree.children(0).find(around).expect("an item"));
            assert_eq!(offence.entry.is_none(), outside.contains(&item), "{text}: {offence}");
            met.insert(item);
        }
    }
    assert!(met.into_iter().eq(outside.into_iter().chain([form::kind::ENTRY])));
}

/// "Two entries may have one name where the types of their parameters differ (23)."
#[test]
fn entries_of_one_name() {
    assert_eq!(codes("entry e(x: u8) { } entry e(x: u16) { } entry e() { }"), []);
    assert_eq!(codes("entry e(x: u8) { } entry e(y: u8) { }"), [23]);
}

/// "Of calls within each other it is the inner one", as the lines of the answer say.
#[test]
fn the_inner_call_takes_the_lot() {
    let line = words::lines().iter().find(|line| line.word.starts_with("used here, ")).expect("the line");
    assert!(line.means.contains("Of calls within each other it is the inner one."), "{}", line.means);
    let text = "contract C { entry e(lot: Q_Asset<M>) { s.get(s.set(lot)); } }";
    let image = example::image(text);
    let lot = isonkaypu::lots(&image).expect("lots").remove(0);
    let [reason] = &lot.reasons[..] else { panic!("{:?}", lot.reasons) };
    let consumer = reason.consumer().expect("a call").span;
    assert_eq!(&text[consumer.start as usize..consumer.end as usize], "s.set(lot)");
}
