//! The two tables of an image, so that they can be changed. Whether what comes of it is admitted is
//! not this file's matter.

use form::image::{Header, RawNode, layout, u16_at};

pub struct Parts {
    pub nodes: Vec<RawNode>,
    pub names: Vec<Vec<u8>>,
}

impl Parts {
    /// The parts of an admitted image.
    pub fn of(image: &[u8]) -> Parts {
        let header = Header::of(image).expect("admitted");
        let word = |k| u16_at(image, header.name_offset + 2 * k).expect("admitted");
        let offset = |k| header.text_offset + usize::from(word(k));
        let name = |k| image[offset(k)..offset(k + 1)].to_vec();
        Parts {
            nodes: (0..header.nodes).filter_map(|i| RawNode::of(image, i)).collect(),
            names: (0..header.names).map(name).collect(),
        }
    }

    pub fn image(&self) -> Vec<u8> {
        layout(&self.nodes, &self.names)
    }
}
