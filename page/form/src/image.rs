//! Document 01, "The image: a header of counts and offsets": the maxima, the words of an image, and
//! the one place where an image's bytes are laid out. Nothing here judges.

/// "Header, 24 bytes"
pub const HEADER: usize = 24;
/// "Node, 16 bytes"
pub const NODE: usize = 16;
/// The most nodes of an image.
pub const MAX_NODES: usize = 2_048;
/// The most names of an image.
pub const MAX_NAMES: usize = 1_024;
/// The most bytes of all names together.
pub const MAX_TEXT: usize = 16_384;
/// The most bytes of one name.
pub const MAX_NAME: usize = 128;
/// The most nodes that may stand above a node.
pub const MAX_ANCESTORS: usize = 64;
/// The length of an image that has every maximum.
pub const MAX_LENGTH: usize = HEADER + NODE * MAX_NODES + 2 * (MAX_NAMES + 1) + MAX_TEXT;

/// The bytes from `at`, where there are as many.
fn bytes_at<const N: usize>(bytes: &[u8], at: usize) -> Option<[u8; N]> {
    bytes.get(at..)?.first_chunk().copied()
}

/// A little-endian u16, where its bytes are there.
pub fn u16_at(bytes: &[u8], at: usize) -> Option<u16> {
    bytes_at(bytes, at).map(u16::from_le_bytes)
}

/// A little-endian u32, where its bytes are there.
pub fn u32_at(bytes: &[u8], at: usize) -> Option<u32> {
    bytes_at(bytes, at).map(u32::from_le_bytes)
}

fn count_at(bytes: &[u8], at: usize) -> Option<usize> {
    u16_at(bytes, at).map(usize::from)
}

fn offset_at(bytes: &[u8], at: usize) -> Option<usize> {
    usize::try_from(u32_at(bytes, at)?).ok()
}

/// The header, word by word.
#[derive(Clone, Copy, Debug, PartialEq, Eq)]
pub struct Header {
    /// The version of the form: 1.
    pub version: u16,
    /// How many nodes there are.
    pub nodes: usize,
    /// How many names there are.
    pub names: usize,
    /// The word that is zero.
    pub zero: u16,
    /// Where the nodes begin.
    pub node_offset: usize,
    /// Where the text offsets of the names begin.
    pub name_offset: usize,
    /// Where the text begins.
    pub text_offset: usize,
    /// How long the image is.
    pub total: usize,
}

impl Header {
    /// Reads the first 24 bytes, where they are there.
    pub fn of(image: &[u8]) -> Option<Header> {
        Some(Header {
            version: u16_at(image, 0)?,
            nodes: count_at(image, 2)?,
            names: count_at(image, 4)?,
            zero: u16_at(image, 6)?,
            node_offset: offset_at(image, 8)?,
            name_offset: offset_at(image, 12)?,
            text_offset: offset_at(image, 16)?,
            total: offset_at(image, 20)?,
        })
    }
}

/// The 16 bytes of a node, word by word.
#[derive(Clone, Copy, Debug, PartialEq, Eq)]
pub struct RawNode {
    /// What it is: a number of `kind`.
    pub kind: u8,
    /// The byte that is zero.
    pub zero_byte: u8,
    /// The number of its name, from 1; 0 where it carries none.
    pub name: usize,
    /// One past the last node of its subtree.
    pub end: usize,
    /// The word that is zero.
    pub zero_word: u16,
    /// Its first span word.
    pub from: u32,
    /// Its second span word.
    pub to: u32,
}

impl RawNode {
    /// Reads node `i`, where it is there.
    pub fn of(image: &[u8], i: usize) -> Option<RawNode> {
        let at = NODE.checked_mul(i)?.checked_add(HEADER)?;
        let node: [u8; NODE] = bytes_at(image, at)?;
        let [kind, zero_byte, ..] = node;
        Some(RawNode {
            kind,
            zero_byte,
            name: count_at(&node, 2)?,
            end: count_at(&node, 4)?,
            zero_word: u16_at(&node, 6)?,
            from: u32_at(&node, 8)?,
            to: u32_at(&node, 12)?,
        })
    }

    fn write(&self, image: &mut Vec<u8>) {
        image.extend([self.kind, self.zero_byte]);
        image.extend(u16_word(self.name));
        image.extend(u16_word(self.end));
        image.extend(self.zero_word.to_le_bytes());
        image.extend(self.from.to_le_bytes());
        image.extend(self.to.to_le_bytes());
    }
}

/// The low bytes of a number: of one within the maxima, all of it.
fn u16_word(number: usize) -> [u8; 2] {
    (number as u16).to_le_bytes()
}

/// Header, nodes, text offsets, text: the bytes of an image with these two tables. Whether it is
/// admitted is not this function's matter; tables too large leave a header that does not fit them.
pub fn layout<T: AsRef<[u8]>>(nodes: &[RawNode], names: &[T]) -> Vec<u8> {
    let text: usize = names.iter().map(|name| name.as_ref().len()).sum();
    let name_offset = HEADER + NODE * nodes.len();
    let text_offset = name_offset + 2 * (names.len() + 1);
    let mut image = Vec::with_capacity(text_offset + text);
    for word in [1, nodes.len(), names.len(), 0] {
        image.extend(u16_word(word));
    }
    for word in [HEADER, name_offset, text_offset, text_offset + text] {
        image.extend((word as u32).to_le_bytes());
    }
    for node in nodes {
        node.write(&mut image);
    }
    write_names(names, &mut image);
    image
}

fn write_names<T: AsRef<[u8]>>(names: &[T], image: &mut Vec<u8>) {
    let mut offset = 0;
    image.extend(u16_word(offset));
    for name in names {
        offset += name.as_ref().len();
        image.extend(u16_word(offset));
    }
    image.extend(names.iter().flat_map(|name| name.as_ref()));
}

#[cfg(test)]
mod tests {
    use super::*;

    fn node(i: usize) -> RawNode {
        let (name, end) = (i + 1, 2 * i + 300);
        RawNode { kind: 23, zero_byte: 1, name, end, zero_word: 515, from: 0x0102_0304, to: u32::MAX }
    }

    #[test]
    fn what_is_laid_out_is_read_back() {
        let nodes = [node(0), node(1)];
        let image = layout(&nodes, &["a", "bc"]);
        let header = Header::of(&image).unwrap();
        assert_eq!((header.version, header.zero), (1, 0));
        assert_eq!((header.nodes, header.names), (2, 2));
        assert_eq!((header.node_offset, header.name_offset, header.text_offset), (24, 56, 62));
        assert_eq!((header.total, image.len()), (65, 65));
        assert_eq!([RawNode::of(&image, 0), RawNode::of(&image, 1)], nodes.map(Some));
        assert_eq!(image[56..], *b"\0\0\x01\0\x03\0abc");
    }

    #[test]
    fn what_is_not_there_is_not_read() {
        let image = layout(&[node(0)], &["a"]);
        assert_eq!(Header::of(&image[..23]), None);
        assert!(Header::of(&image[..24]).is_some());
        assert!(RawNode::of(&image[..40], 0).is_some());
        assert_eq!(RawNode::of(&image[..39], 0), None);
        assert_eq!(RawNode::of(&image, usize::MAX), None);
        assert_eq!(u16_at(&image, usize::MAX), None);
        assert_eq!(u32_at(&[1, 2, 3], 0), None);
    }
}
