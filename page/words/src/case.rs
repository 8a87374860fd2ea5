//! The cases of a code: what helps in one contract does not help in another, so a code has a `mend` for
//! each. Which case a contract is in is decided in one place, `show`'s `advice`.

/// A case, by what is special in it.
#[derive(Clone, Copy, Debug, PartialEq, Eq, Hash, PartialOrd, Ord)]
pub enum Case {
    /// Nothing special: the field `mend`.
    Plain,
    /// A declared name differs by a slip of the pen.
    Near,
    /// The name is `QTOV`.
    Qtov,
    /// The name is `deployer`.
    Deployer,
    /// The name belongs to something else already: a field, a parameter, a `let`.
    Taken,
    /// The name is a `let` of genesis.
    Local,
    /// The `let` needs the value that is asked for.
    Itself,
    /// One asset is declared twice.
    Twice,
    /// Another `emit` fits the declaration.
    Fits,
    /// Genesis stores `deployer` in a field.
    Stored,
    /// The method is `has`.
    Has,
    /// The near method changes a field that `writes` does not name.
    Changes,
    /// Another fault stands here, and this one goes with it.
    Beside,
    /// Two have one name: that is mended first.
    First,
    /// No second asset can be declared.
    Single,
    /// The entry has no such clause.
    Clause,
    /// The clause names something that it cannot.
    Wrong,
    /// A field that holds an address is changed.
    Assign,
    /// It is called or changed.
    Called,
    /// Its type makes an asset known.
    Known,
    /// Other `emit`s of the event give another number of values.
    Unlike,
    /// Both names of a lot are used.
    Both,
    /// A `burns` clause would use the lot up.
    Burn,
    /// A `burns` clause uses the lot.
    Burned,
    /// The same, and nothing else uses another lot.
    Needed,
}

use Case::*;

/// Every code that has more cases than the plain one.
const OF_CODES: &[(u16, &[Case])] = &[
    (20, &[Known]),
    (22, &[Twice]),
    (26, &[Itself, Taken]),
    (30, &[Near, Unlike]),
    (31, &[Fits]),
    (32, &[Stored, Taken, Called]),
    (33, &[Near, Taken, Local, Deployer]),
    (34, &[Has, Near, Changes, Beside]),
    (35, &[Near, Taken, Beside]),
    (36, &[Near, Taken, Deployer]),
    (37, &[Near, Single]),
    (38, &[Qtov, Near, Single]),
    (39, &[Qtov, Near, Single]),
    (40, &[Assign]),
    (50, &[Near, Taken, Beside]),
    (51, &[Clause, Wrong, Beside]),
    (60, &[Both]),
    (61, &[Burn, Beside, First, Deployer]),
    (62, &[Burned, Needed, First]),
];

impl Case {
    /// The cases of a code beside the plain one.
    pub fn of_code(code: u16) -> &'static [Case] {
        OF_CODES.iter().find(|(of, _)| *of == code).map_or(&[], |(_, cases)| cases)
    }

    /// What the field of a case is called: `mend near`.
    pub fn field(self) -> &'static str {
        match self {
            Plain => "mend",
            Near => "mend near",
            Qtov => "mend qtov",
            Deployer => "mend deployer",
            Taken => "mend taken",
            Local => "mend local",
            Itself => "mend itself",
            Twice => "mend twice",
            Fits => "mend fits",
            Stored => "mend stored",
            Has => "mend has",
            Changes => "mend changes",
            Beside => "mend beside",
            First => "mend first",
            Single => "mend single",
            Clause => "mend clause",
            Wrong => "mend wrong",
            Assign => "mend assign",
            Called => "mend called",
            Known => "mend known",
            Unlike => "mend unlike",
            Both => "mend both",
            Burn => "mend burn",
            Burned => "mend burned",
            Needed => "mend needed",
        }
    }
}
