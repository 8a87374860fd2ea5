//! What the command says of itself.

use words::statuses;

pub const USAGE: &str = "\
usage: isonkaypu check IMAGE... [--source FILE | --sources DIR] [--format text|numbers|json|sarif|html]
                 [--by-entry] [--output FILE] [--color always|never|auto] [--root DIR]
       isonkaypu why IMAGE PLACE [--source FILE] [--color always|never|auto]
       isonkaypu show IMAGE
       isonkaypu explain [NUMBER | image NUMBER | WORD]
       isonkaypu help-page | --version | --help";

/// `--help`
pub fn help() -> String {
    let statuses: String =
        statuses().iter().map(|s| format!("  {}  {}\n", s.word, show::wrapped(&s.means, 5, 5))).collect();
    format!("{ABOUT}\n{USAGE}\n\n{COMMANDS}\nExit status:\n{statuses}")
}

const ABOUT: &str =
    "Checks the rules of a ward's stock: a Quanta contract, packed as an image by the upload page.\n";

const COMMANDS: &str = "\
check    checks images and writes the report; `-` is standard input
           --source FILE   the contract's text, so that each fault is shown in its line; the image's spans are
                           byte offsets into it. A text that is not the one that the image was made from is
                           not shown: the report says where it differs, and the exit status is 3
           --sources DIR   the same for several images: WARD.image with DIR/WARD.quanta
           --format FORM   text: for people (so it is without this option); numbers: the numbers alone;
                           json, sarif: for programs; html: a page. Of several images text has a summary at
                           its end, json is a list of reports, sarif one log; numbers and html take one image
           --by-entry      text with the faults under a heading for each entry, with their number: first those
                           outside of the entries, then entry by entry as the contract has them. Without
                           this option they are in the order of the list. html is always by entry; json has
                           the list, and which of it stands in which entry
           --output FILE   writes the report to a file, whole or not at all; also -o FILE
           --color WHEN    colours of text: always, never, or auto (so it is without this option): on a
                           terminal, unless NO_COLOR is set
           --root DIR      the folder that the paths of a sarif log begin at; else they are as they were given
         Of several images the exit status is the highest. An option's value may also stand behind `=`
why      says of one lot which clauses and which statements use it, each in its line. PLACE is the lot's node, the
         second number in the line of a 61 or 62; for any other the lots of the contract are named. The exit
         status is 0 where the lot has exactly one use, and 1 where it has none or more
show     writes the parts of an image as a tree: number, kind, name, span
explain  says what a number or a word means and how to mend it; alone, lists what there is
help-page
         writes all of these words as one page, docs/HELP.md
";

/// `--version`: ours, the proved library's, and the kit's that it was made with.
pub fn version() -> String {
    format!("{}\nmade with {}\n", show::made_by(), isonkaypu::kit())
}
