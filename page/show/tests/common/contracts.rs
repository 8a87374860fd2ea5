//! Contracts with one fault each, for every code and every case: templates, and what chance puts into them.

use super::chance::Chance;
use words::Case::{self, *};

/// Document 01's P9: a lot that is burned, and sent as well.
pub const BURNED_AND_SENT: &str = "\
contract WardStock {
    asset Morphine;
    entry destroy(lot: Q_Asset<Morphine>, to: Q_Address)
        burns Morphine
    {
        send(to, lot);
    }
}
";

/// Two parameters of one name, each burned by a clause of its own.
pub const BURNED_TWICE: &str = "\
contract WardStock {
    asset Morphine;
    asset Fentanyl;
    entry destroy(lot: Q_Asset<Morphine>, lot: Q_Asset<Fentanyl>, to: Q_Address)
        burns Morphine
        burns Fentanyl
    {
        send(to, lot);
    }
}
";

/// What a template's capital letters stand for, behind a `$`; `~` is a slip of the pen for the same.
const NAMES: &[(char, &[&str])] = &[
    ('F', &["limit", "issued", "day_total"]),
    ('G', &["cupboard", "reserve", "shelf"]),
    ('H', &["pharmacist", "warden", "supervisor"]),
    ('A', &["Morphine", "Fentanyl"]),
    ('B', &["Ketamine", "Oxycodone"]),
    ('E', &["dispense", "hand_over"]),
    ('P', &["amount", "quantity", "dosage"]),
    ('L', &["parcel", "ampoules"]),
    ('M', &["second_box", "carton"]),
    ('T', &["recipient", "nurse_desk"]),
    ('V', &["Noted", "Handed_out"]),
    ('X', &["remaining", "portion"]),
    ('U', &["zebra", "xylophone", "quince"]),
];

/// A code, a case, and the items of contracts in it. `%` is where other statements may stand.
pub type Template = (u16, Case, &'static str);

#[rustfmt::skip]
pub const TEMPLATES: &[Template] = &[
    (20, Plain, "state { $F: u64; $F: u32; }"),
    (20, Plain, "state { $F: Q_Address; } entry $E($T: u64) writes $F { % $F.set($T); } state { $F: u32; }"),
    (20, Known, "state { $G: Q_Asset<$A>; $G: u64; } entry $E() conserves $A { % }"),
    (21, Plain, "event $V(a: u64); event $V(a: u64, b: u64); entry $E() { % emit $V(1, 2); }"),
    (22, Plain, "asset $A; asset $B; entry $E($T: Q_Address) mints $A { % mint_asset($T, 5); % }"),
    (22, Plain, "asset $A; asset $B; genesis { % mint_asset(deployer, 5); }"),
    (22, Twice, "asset $A; entry $E($T: Q_Address) mints $A { % mint_asset($T, 5); } asset $A;"),
    (23, Plain, "entry $E($P: u64) { % } entry $E($X: u64) { }"),
    (24, Plain, "state { $F: u64; } entry $E($F: u64) writes $F { % $F = $F; }"),
    (24, Plain, "asset $A; state { $L: u64; } entry $E($L: Q_Asset<$A>, $T: Q_Address) { % send($T, $L); }"),
    (25, Plain, "event $V(a: u64); entry $E($P: u64, $P: u32) { % emit $V($P); }"),
    (26, Plain, "state { $F: u64; } entry $E($P: u64) { % guard $X > 0; % let $X = $F - $P; % }"),
    (26, Plain, "entry $E($P: u64) { % guard $X > 0; let $M = $P; % let $X = $M + $M; }"),
    (26, Plain, "state { $G: Q_Asset<$A>; } entry $E($T: Q_Address) writes $G { send($T, $X); let $X = $G.split(5); }"),
    (26, Plain, "entry $E() { % guard $X > 0; let $X = $M; % let $M = 5; }"),
    (26, Itself, "entry $E() { let $M = $X; let $P = $M; let $X = $P; }"),
    (26, Itself, "entry $E($P: u64) { % let $X = $X - $P; }"),
    (26, Itself, "entry $E() { let $M = $X; let $X = $M; }"),
    (26, Taken, "state { $F: u64; } entry $E() { % guard $F > 0; let $F = 5; guard $F > 1; }"),
    (26, Taken, "entry $E($P: u64) { % guard $P > 0; let $P = 5; }"),
    (27, Plain, "entry $E($P: u64) { let $X = $P; % let $X = $P + 1; guard $X > 0; }"),
    (28, Plain, "state { $F: u64; } entry $E() { % let $F = 5; guard $F > 0; }"),
    (29, Plain, "entry $E($P: u64) { % let $P = 5; guard $P > 0; }"),
    (30, Plain, "entry $E() { % emit $U(); }"),
    (30, Plain, "event $V(a: u64); genesis { % emit $U(1, 2, 3); }"),
    (30, Plain, "event $V(a: u64); entry $E() { % emit ~V(1, 2); }"),
    (30, Near, "event $V(a: u64); entry $E($P: u64) { % emit ~V($P); }"),
    (30, Unlike, "entry $E($P: u64) { emit $U($P); % emit $U(); } genesis { emit $U(1, 2); }"),
    (31, Plain, "event $V(a: u64); entry $E($P: u64) { % emit $V($P, 2, 3); }"),
    (31, Plain, "event $V(a: u64, b: u64); entry $E($P: u64) { % emit $V(); }"),
    (31, Fits, "event $V(a: u64); entry $E($P: u64) { emit $V($P); % emit $V($P, 2); }"),
    (31, Fits, "event $V(); entry $E($P: u64) { emit $V(); % emit $V($P, 2); }"),
    (32, Plain, "state { $F: u64; } entry $E() { % guard caller == deployer; }"),
    (32, Plain, "state { owner: u64; } entry $E($P: u64) limits deployer == $P { % }"),
    (32, Stored, "state { $H: Q_Address; } genesis { % $H = deployer; } entry $E() { % guard caller == deployer; }"),
    (32, Taken, "entry $E(deployer: Q_Address) { % guard caller == deployer; }"),
    (32, Taken, "entry $E($T: Q_Address, deployer: Q_Asset<$A>) { % send($T, deployer); }"),
    (32, Taken, "state { deployer: Q_Address; } genesis { deployer = 5; } entry $E() { % guard caller == deployer; }"),
    (32, Called, "entry $E($P: u64) { % deployer.credit($P); }"),
    (32, Called, "entry $E($P: u64) { % deployer = $P; }"),
    (33, Plain, "state { $F: u64; } genesis { % $U = 5; }"),
    (33, Plain, "genesis { $U = 5; } entry $E($P: u64) { % $U = $P; } state { $F: u64; } entry two() writes $F { $U.set(1); }"),
    (33, Near, "state { $F: u64; $G: u64; } genesis { % ~F = 5; }"),
    (33, Near, "state { $F: u64; } genesis { ~F.part = 5; }"),
    (33, Taken, "state { $F: u64; } genesis { $P = 5; } entry $E($P: u64) { % }"),
    (33, Taken, "state { $F: u64; } genesis { $X = 5; } entry $E() { % let $X = 1; }"),
    (33, Local, "state { $F: u64; } genesis { let $X = 5; % $X = 6; $F = $X; }"),
    (33, Deployer, "state { $F: u64; } genesis { % deployer = 6; }"),
    (34, Plain, "entry $E($P: u64) { % $U($P); }"),
    (34, Has, "state { $F: u64; } entry $E($P: u64) { % guard $F.has($P); }"),
    (34, Near, "asset $A; entry $E($L: Q_Asset<$A>, $T: Q_Address) { % sned($T, $L); }"),
    (34, Near, "state { $F: u64; } entry $E($P: u64) writes $F { % $F.Set($P); }"),
    (34, Near, "state { $F: u64; } genesis { % $F.st(5); $F.sett(6); }"),
    (34, Near, "state { $G: u64; } entry $E($T: Q_Address) writes $G { let $X = $G.splti(5); % send($T, $X); }"),
    (34, Plain, "state { $G: u64; } entry $E($T: Q_Address) writes $G { let $X = $G.splti(5); % }"),
    (34, Plain, "asset $A; asset $B; entry $E() { % mint_aset(5); }"),
    (34, Changes, "state { $F: u64; } entry $E($P: u64) { % $F.remvoe($P); }"),
    (34, Changes, "state { $F: u64; $G: u64; } entry $E($P: u64) writes $G { % $F.part.remov($P); }"),
    (34, Beside, "entry $E($P: u64) { % caller.pay($P); }"),
    (34, Beside, "entry $E($T: Q_Address) { % $T.pay(5); }"),
    (35, Plain, "state { $F: u64; } entry $E($P: u64 signed_by $U) { % }"),
    (35, Plain, "entry $E($P: u64 signed_by $U) { % } entry two() { $U = 5; }"),
    (35, Near, "state { $H: Q_Address; } entry $E($P: u64 signed_by ~H) { % }"),
    (35, Taken, "state { $H: Q_Address; } entry $E($T: Q_Address, $P: u64 signed_by $T) { % }"),
    (35, Taken, "entry $E($P: u64 signed_by $X) { % let $X = 5; }"),
    (35, Taken, "entry two($X: u64) { } entry $E($P: u64 signed_by $X) { % }"),
    (35, Beside, "state { $H: Q_Address; } entry $E($P: u64 signed_by deployer) { % }"),
    (36, Plain, "state { $F: u64; } entry $E() writes $F, $U { % $F = 5; }"),
    (36, Plain, "entry $E() reads $U { % }"),
    (36, Plain, "entry $E() writes $U reads $U { % $U = 5; } entry two() { $U = 6; }"),
    (36, Near, "state { $F: u64; $G: u64; } entry $E() reads ~F, $G { % }"),
    (36, Near, "state { $F: u64; } entry $E() reads ~F { % }"),
    (36, Taken, "state { $F: u64; } entry $E($P: u64) reads $P, $F { % }"),
    (36, Taken, "entry $E() reads $X { % let $X = 5; }"),
    (36, Deployer, "state { $F: u64; } entry $E() reads $F, deployer { % }"),
    (37, Plain, "asset $A; entry $E() conserves $U { % }"),
    (37, Near, "asset $A; entry $E() conserves ~A { % }"),
    (37, Near, "state { $G: Map<u64, Q_Asset<$B>>; } entry $E() conserves ~B { % }"),
    (37, Near, "entry $E() conserves QTVO { % }"),
    (37, Single, "asset $A; entry $E($T: Q_Address) conserves $U mints $A { % mint_asset($T, 5); }"),
    (38, Plain, "state { $G: Q_Asset<$A>; } entry $E() mints $A { % }"),
    (38, Qtov, "asset $A; entry $E() mints QTOV { % }"),
    (38, Near, "asset $A; asset $B; entry $E() mints ~B { % }"),
    (38, Single, "asset $A; entry $E($T: Q_Address) mints $U { % mint_asset($T, 5); }"),
    (39, Plain, "entry $E($L: Q_Asset<$A>) burns $A { % }"),
    (39, Plain, "asset $A; entry $E($L: Q_Asset<$A>, $T: Q_Address) burns ~A { % send($T, $L); }"),
    (39, Qtov, "asset $A; entry $E() burns QTOV { % }"),
    (39, Qtov, "entry $E($L: Q_Asset<QTOV>, $M: Q_Asset<QTOV>, $T: Q_Address) burns QTOV { % }"),
    (39, Qtov, "state { $H: Q_Address; } entry $E($L: Q_Asset<QTOV>) burns QTOV { % }"),
    (39, Near, "asset $A; entry $E($P: u64) burns ~A { % }"),
    (39, Single, "asset $A; entry $E($L: Q_Asset<$U>, $T: Q_Address) burns $U { % mint_asset($T, 5); }"),
    (40, Plain, "asset $A; entry $E($L: Q_Asset<$A>, $T: Q_Address) { % $T.credit($L); }"),
    (40, Plain, "state { $H: Q_Address; } entry $E($P: u64) { % $H.get($P); }"),
    (40, Plain, "entry $E($P: u64) { % caller.part.get($P); }"),
    (40, Assign, "state { $H: Q_Address; } entry $E($T: Q_Address) writes $H { % $H.set($T); }"),
    (40, Assign, "state { $H: Q_Address; } entry $E() writes $H { % $H.set(caller); }"),
    (50, Plain, "state { $F: u64; } invariant $F <= $U;"),
    (50, Plain, "invariant $U > 5; entry $E() { % $U = 6; }"),
    (50, Near, "state { $F: u64; $G: u64; } invariant ~F <= $G;"),
    (50, Taken, "state { $F: u64; } invariant $P <= $F; entry $E($P: u64) { % }"),
    (50, Taken, "state { $F: u64; } invariant $X <= $F; entry $E() { % let $X = 5; }"),
    (50, Beside, "state { $F: u64; } invariant deployer == $F;"),
    (51, Plain, "state { $F: u64; $G: u64; } entry $E() writes $G { % $F = 5; }"),
    (51, Plain, "state { $F: u64; $G: u64; } entry $E() writes $G writes $G { % $F.set(5); }"),
    (51, Clause, "state { $F: u64; $G: u64; } entry $E() reads $G { % $F.part = 5; $G.set(6); }"),
    (51, Clause, "state { $F: u64; } entry $E($P: u64) { % $F = $P; }"),
    (51, Clause, "state { $H: Q_Address; } entry $E($T: Q_Address) { % $H.set($T); }"),
    (51, Wrong, "state { $F: u64; } entry $E($P: u64) writes ~F { % $F = $P; }"),
    (51, Wrong, "state { $F: u64; $G: u64; } entry $E() writes $G, $U { % $F = 5; }"),
    (51, Beside, "state { $H: Q_Address; } entry $E($P: u64) { % $H.credit($P); }"),
    (60, Plain, "asset $A; entry $E($L: Q_Asset<$A>, $T: Q_Address) { % let $M = $L; send($T, $L); }"),
    (60, Plain, "asset $A; entry $E($L: Q_Asset<$A>, $T: Q_Address) { % let $M = $L; % send($T, $M); }"),
    (60, Plain, "state { $G: u64; } entry $E($T: Q_Address) writes $G { let $L = $G.split(5); let $M = checked($L); send($T, $L); }"),
    (60, Both, "state { $G: u64; } asset $A; entry $E($L: Q_Asset<$A>, $T: Q_Address) writes $G { let $M = $L; % send($T, $M); $G.merge($L); }"),
    (60, Both, "asset $A; entry $E($L: Q_Asset<$A>, $T: Q_Address) burns $A { let $M = $L; % send($T, $M); }"),
    (61, Plain, "entry $E($L: Q_Asset<$A>, $T: Q_Address) { % }"),
    (61, Plain, "state { $G: Q_Asset<$A>; $H: Q_Address; } entry $E($L: Q_Asset<$A>) { % }"),
    (61, Plain, "state { $G: Q_Asset<$A>; } entry $E() writes $G { let $X = $G.split(5); % }"),
    (61, Plain, "asset $A; entry $E($L: Q_Asset<$A>, $M: Q_Asset<$A>, $T: Q_Address) { % send($T, $M); }"),
    (61, Burn, "asset $A; entry $E($L: Q_Asset<$A>) { % }"),
    (61, Burn, "asset $A; state { $G: Q_Asset<$A>; $F: u64; } entry $E($L: Q_Asset<$A>, $T: Q_Address) writes $F { % $F = 5; }"),
    (61, Deployer, "entry $E(deployer: Q_Asset<$A>, $T: Q_Address) { % }"),
    (61, Deployer, "state { $G: u64; } entry $E() writes $G { let deployer = $G.split(5); % }"),
    (61, Beside, "asset $A; entry $E($L: Q_Asset<$A>, $T: Q_Address) { let $M = $L; % send($T, $M); }"),
    (61, First, "asset $A; entry $E($L: Q_Asset<$A>, $L: Q_Asset<$A>, $T: Q_Address) { % send($T, $L); }"),
    (61, First, "state { $G: u64; } entry $E($T: Q_Address) writes $G { let $X = $G.split(1); let $X = $G.split(2); send($T, $X); }"),
    (62, Plain, "state { $G: u64; } asset $A; entry $E($L: Q_Asset<$A>, $T: Q_Address) writes $G { % send($T, $L); % $G.merge($L); }"),
    (62, Plain, "state { $G: u64; } entry $E($T: Q_Address) writes $G { let $X = $G.split(5); send($T, $X); % $G = $X; send($T, $X); }"),
    (62, Burned, "asset $A; entry $E($L: Q_Asset<$A>, $T: Q_Address) burns $A { % send($T, $L); }"),
    (62, Burned, "asset $A; state { $G: u64; } entry $E($L: Q_Asset<$A>, $T: Q_Address) burns $A writes $G { $G.merge($L); % send($T, $L); % $G = $L; }"),
    (62, Burned, "asset $A; entry $E($L: Q_Asset<$A>, $M: Q_Asset<$A>, $T: Q_Address) burns $A { send($T, $L); % send($T, $M); }"),
    (62, Needed, "asset $A; state { $G: u64; } entry $E($L: Q_Asset<$A>, $M: Q_Asset<$A>, $T: Q_Address) burns $A writes $G { $G.merge($L); % send($T, $L); }"),
    (62, First, "asset $A; entry $E($L: Q_Asset<$A>, $L: Q_Asset<$A>, $T: Q_Address) burns $A { % send($T, $L); }"),
    (62, First, "asset $A; asset $B; entry $E($L: Q_Asset<$A>, $L: Q_Asset<$B>, $T: Q_Address) burns $A burns $B { % send($T, $L); }"),
    (62, First, "asset $A; entry $E($L: Q_Asset<$A>, $L: Q_Asset<$A>, $T: Q_Address) { % send($T, $L); send($T, $L); }"),
];

/// The contract of a template, with names, slips and other items by chance.
pub fn contract(items: &str, seed: u64) -> String {
    let mut chance = Chance::new(seed);
    let names: Vec<(char, &str)> =
        NAMES.iter().map(|(sign, names)| (*sign, names[chance.below(names.len())])).collect();
    let name = |sign: char| names.iter().find(|(one, _)| *one == sign).expect("a known letter").1;
    let mut text = String::new();
    let mut signs = items.chars();
    while let Some(sign) = signs.next() {
        match sign {
            '$' => text += name(signs.next().expect("a letter")),
            '~' => text += &slip(name(signs.next().expect("a letter")), &mut chance),
            '%' => {
                text +=
                    ["", "guard 1 > 0;", "emit Other(1);", "guard now > 5; emit Other(2);"][chance.below(4)]
            }
            other => text.push(other),
        }
    }
    let before = ["", "state { other_field: u64; }", "entry other_entry(other: u64) { guard other > 1; }"];
    format!(
        "contract Ward {{ event Other(n: u64); {} {text} {} }}",
        before[chance.below(3)],
        before[chance.below(2)].replace("other_", "more_")
    )
}

/// The name with one slip of the pen.
fn slip(name: &str, chance: &mut Chance) -> String {
    let mut letters: Vec<char> = name.chars().collect();
    let at = 1 + chance.below(letters.len() - 2);
    match chance.below(4) {
        0 => {
            letters[0] = if letters[0].is_uppercase() {
                letters[0].to_ascii_lowercase()
            } else {
                letters[0].to_ascii_uppercase()
            }
        }
        1 if letters[at] != letters[at + 1] => letters.swap(at, at + 1),
        2 => letters.insert(at, letters[at]),
        _ => drop(letters.remove(at)),
    }
    letters.into_iter().collect()
}
