//! Document 01, refusals 1 to 8: "Given exactly when (tested in this order)".
//!
//! Each test may lean on the ones before it: the layout is only read once 1 to 4 have passed, the
//! nodes only once the names are good, the depth only once the nodes form a tree.

use crate::image::*;
use crate::kind::{self, *};
use crate::tree::{Node, Tree};

/// The refusal of an image, 0 when it is admitted.
pub fn refusal(image: &[u8]) -> u8 {
    admit(image).err().unwrap_or(0)
}

/// The tree of an admitted image, or its refusal.
pub fn admit(image: &[u8]) -> Result<Tree<'_>, u8> {
    // 1: length under 24 or over 51,226
    refuse_unless(1, image.len() >= HEADER && image.len() <= MAX_LENGTH)?;
    let header = Header::of(image).ok_or(1)?;
    // 2: version not 1, or header zero not 0
    refuse_unless(2, header.version == 1 && header.zero == 0)?;
    // 3: N is 0 or over 2,048, or M over 1,024
    refuse_unless(3, counts_fit(&header))?;
    // 4: an offset is not as above, or total is not the length or is below the text offset
    refuse_unless(4, offsets_fit(&header, image.len()))?;
    // 5: text offsets, text and names
    refuse_unless(5, text_offsets_fit(image, &header))?;
    let names = names(image, &header);
    refuse_unless(5, names_fit(&names))?;
    // 6: nodes don't form the tree above (kinds, ends, zeros, name numbers, text form)
    let nodes = nodes(image, &header);
    refuse_unless(6, nodes_form_the_tree(&nodes, &names))?;
    let tree = Tree { nodes: nodes.iter().map(|n| node_of(n, &names)).collect() };
    // 7: a node has over 64 ancestors
    refuse_unless(7, deepest(&tree) <= MAX_ANCESTORS)?;
    // 8: a name is unused
    refuse_unless(8, every_name_is_used(&nodes, names.len()))?;
    Ok(tree)
}

fn refuse_unless(number: u8, good: bool) -> Result<(), u8> {
    if good { Ok(()) } else { Err(number) }
}

fn counts_fit(header: &Header) -> bool {
    header.nodes != 0 && header.nodes <= MAX_NODES && header.names <= MAX_NAMES
}

/// "u32 node offset 24; u32 name offset 24+16N; u32 text offset 24+16N+2(M+1); u32 total length"
fn offsets_fit(header: &Header, length: usize) -> bool {
    header.node_offset == HEADER
        && header.name_offset == HEADER + NODE * header.nodes
        && header.text_offset == HEADER + NODE * header.nodes + 2 * (header.names + 1)
        && header.total == length
        && header.total >= header.text_offset
}

/// "text offsets don't start at 0, rise and end at the text's length; text over 16,384 bytes"
fn text_offsets_fit(image: &[u8], header: &Header) -> bool {
    let offsets = text_offsets(image, header);
    let length = image.len() - header.text_offset;
    offsets[0] == 0
        && offsets.windows(2).all(|pair| pair[0] < pair[1])
        && offsets[header.names] == length
        && length <= MAX_TEXT
}

/// The M+1 text offsets.
fn text_offsets(image: &[u8], header: &Header) -> Vec<usize> {
    let at = |k| u16_at(image, header.name_offset + 2 * k).map(usize::from);
    (0..=header.names).filter_map(at).collect()
}

/// The names in the order of the table; name number k is the one at k - 1.
fn names<'a>(image: &'a [u8], header: &Header) -> Vec<&'a [u8]> {
    let text = &image[header.text_offset..];
    let offsets = text_offsets(image, header);
    offsets.windows(2).map(|o| &text[o[0]..o[1]]).collect()
}

/// "a name not 1 to 128 bytes, of neither form, or not above its predecessor"
fn names_fit(names: &[&[u8]]) -> bool {
    names.iter().all(|name| name_fits(name)) && names.windows(2).all(|pair| pair[0] < pair[1])
}

fn name_fits(name: &[u8]) -> bool {
    (1..=MAX_NAME).contains(&name.len()) && (is_identifier(name) || is_number_text(name))
}

/// "identifiers (ASCII letter or `_`, then letters, digits, `_`)"
pub fn is_identifier(name: &[u8]) -> bool {
    name.first().is_some_and(|b| !b.is_ascii_digit()) && name.iter().all(|b| is_name_byte(*b))
}

/// "number texts (digit, then the same)"
pub fn is_number_text(name: &[u8]) -> bool {
    name.first().is_some_and(|b| b.is_ascii_digit()) && name.iter().all(|b| is_name_byte(*b))
}

fn is_name_byte(byte: u8) -> bool {
    byte.is_ascii_alphanumeric() || byte == b'_'
}

fn nodes(image: &[u8], header: &Header) -> Vec<RawNode> {
    (0..header.nodes).filter_map(|i| RawNode::of(image, i)).collect()
}

/// "Node 0 is the contract and ends at N", and every node is as the table says.
fn nodes_form_the_tree(nodes: &[RawNode], names: &[&[u8]]) -> bool {
    nodes[0].kind == CONTRACT
        && nodes[0].end == nodes.len()
        && (0..nodes.len()).all(|i| node_fits(nodes, names, i))
}

fn node_fits(nodes: &[RawNode], names: &[&[u8]], i: usize) -> bool {
    let node = &nodes[i];
    node.zero_byte == 0
        && node.zero_word == 0
        && carried_name_fits(node, names)
        && children(nodes, i).is_some_and(|kids| children_fit(node.kind, &kids))
}

/// "Kinds 12, 23 and 35 carry a name number; all others carry 0." Texts are identifiers for 23
/// and 35, number texts for 12.
fn carried_name_fits(node: &RawNode, names: &[&[u8]]) -> bool {
    if !carries_a_name(node.kind) {
        return node.name == 0;
    }
    let Some(text) = node.name.checked_sub(1).and_then(|k| names.get(k)) else {
        return false;
    };
    match node.kind {
        INT_OF_TYPE => is_number_text(text),
        _ => is_identifier(text),
    }
}

/// The kinds of node i's children: "the first child of node i is i+1, the next child begins at
/// the last one's end, and a node's end is one past its subtree". None where the ends do not say
/// so.
fn children(nodes: &[RawNode], i: usize) -> Option<Vec<u8>> {
    let end = nodes[i].end;
    if end <= i || end > nodes.len() {
        return None;
    }
    let mut kids = Vec::new();
    let mut child = i + 1;
    while child < end {
        kids.push(nodes[child].kind);
        if nodes[child].end <= child {
            return None;
        }
        child = nodes[child].end;
    }
    (child == end).then_some(kids)
}

/// The table of children, row by row.
fn children_fit(node: u8, kids: &[u8]) -> bool {
    match node {
        CONTRACT => matches!(kids, [NAME, items @ ..] if all(items, is_item)),
        ASSET => matches!(kids, [NAME]),
        STATE => all(kids, |k| k == FIELD_DECL),
        FIELD_DECL => {
            matches!(kids, [NAME, TYPE, default @ ..] if optional(default, is_expression))
        }
        EVENT => matches!(kids, [NAME, params @ ..] if all(params, |k| k == EVENT_PARAM)),
        EVENT_PARAM => kids.is_empty(),
        GENESIS => all(kids, is_statement),
        INVARIANT => one(kids, is_expression),
        ENTRY => matches!(kids, [NAME, rest @ ..] if entry_parts_fit(rest)),
        PARAM => matches!(kids, [NAME, TYPE] | [NAME, TYPE, NAME]),
        TYPE => matches!(kids, [NAME, arguments @ ..] if all(arguments, is_type_argument)),
        INT_OF_TYPE => kids.is_empty(),
        M_OF_N => matches!(kids, [INT_OF_TYPE, INT_OF_TYPE]),
        WRITES | READS => all(kids, |k| k == NAME),
        CONSERVES | MINTS | BURNS => matches!(kids, [NAME]),
        LIMITS | DENIES => one(kids, is_expression),
        AFTER => matches!(kids, [target, from @ ..]
            if is_after_target(*target) && optional(from, is_expression)),
        DURATION | NAME => kids.is_empty(),
        GUARD | STMT_EXPR => one(kids, is_expression),
        LET => matches!(kids, [NAME, value] if is_expression(*value)),
        EMIT => matches!(kids, [NAME, arguments @ ..] if all(arguments, is_expression)),
        ASSIGN => two_expressions(kids),
        INT | DATE | STR | IDENT | CALLER | NATIVE | IN_ASSET | NOW => kids.is_empty(),
        UNARY | CHECKED | WRAPPING => one(kids, is_expression),
        BINARY => two_expressions(kids),
        FIELD => matches!(kids, [base, NAME] if is_expression(*base)),
        CALL => !kids.is_empty() && all(kids, is_expression),
        _ => false,
    }
}

/// "Param*, clauses*, statements*"
fn entry_parts_fit(kids: &[u8]) -> bool {
    let kids = after_run(kids, |k| k == PARAM);
    let kids = after_run(kids, kind::is_clause);
    after_run(kids, kind::is_statement).is_empty()
}

/// "22 or expression"
fn is_after_target(kind: u8) -> bool {
    kind == DURATION || is_expression(kind)
}

/// What is left when the first children that pass are taken away.
fn after_run(kids: &[u8], passes: impl Fn(u8) -> bool) -> &[u8] {
    let run = kids.iter().take_while(|k| passes(**k)).count();
    &kids[run..]
}

fn all(kids: &[u8], passes: impl Fn(u8) -> bool) -> bool {
    kids.iter().all(|k| passes(*k))
}

fn one(kids: &[u8], passes: impl Fn(u8) -> bool) -> bool {
    kids.len() == 1 && all(kids, passes)
}

fn optional(kids: &[u8], passes: impl Fn(u8) -> bool) -> bool {
    kids.len() <= 1 && all(kids, passes)
}

fn two_expressions(kids: &[u8]) -> bool {
    kids.len() == 2 && all(kids, is_expression)
}

fn node_of<'a>(node: &RawNode, names: &[&'a [u8]]) -> Node<'a> {
    Node {
        kind: node.kind,
        end: node.end,
        text: node.name.checked_sub(1).map_or(&[], |k| names[k]),
        from: node.from,
        to: node.to,
    }
}

/// The most ancestors that a node has.
fn deepest(tree: &Tree) -> usize {
    let mut open_ends: Vec<usize> = Vec::new();
    let mut most = 0;
    for i in tree.all() {
        while open_ends.last().is_some_and(|end| *end <= i) {
            open_ends.pop();
        }
        most = most.max(open_ends.len());
        open_ends.push(tree.end(i));
    }
    most
}

fn every_name_is_used(nodes: &[RawNode], names: usize) -> bool {
    let mut used = vec![false; names + 1];
    for node in nodes {
        used[node.name] = true;
    }
    used[1..].iter().all(|u| *u)
}
