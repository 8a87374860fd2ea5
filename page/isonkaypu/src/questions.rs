//! The three questions about a name. Any bytes may be given as the image and as the name. Names are
//! equal only when their bytes are: `Limit` and `limit` are two names.

use crate::ImageRefusal;

/// A byte that is neither yes nor no is no answer.
fn answered((number, yes): (usize, u8)) -> Result<bool, ImageRefusal> {
    ImageRefusal::unless_admitted(number)?;
    match yes {
        0 => Ok(false),
        1 => Ok(true),
        _ => Err(ImageRefusal::UNKNOWN),
    }
}

/// Is the name a state field of the image's contract?
pub fn is_state(image: &[u8], name: &[u8]) -> Result<bool, ImageRefusal> {
    answered(isonkaypu_sys::is_state(image, name))
}

/// Is the name an asset that the contract declares?
pub fn is_declared_asset(image: &[u8], name: &[u8]) -> Result<bool, ImageRefusal> {
    answered(isonkaypu_sys::is_declared_asset(image, name))
}

/// Is the name an asset that the contract knows: declared, `QTOV`, or inside a `Q_Asset` type?
pub fn is_known_asset(image: &[u8], name: &[u8]) -> Result<bool, ImageRefusal> {
    answered(isonkaypu_sys::is_known_asset(image, name))
}

#[cfg(test)]
mod tests {
    use super::*;

    #[test]
    fn only_an_answer_is_taken_for_one() {
        assert_eq!(answered((0, 1)), Ok(true));
        assert_eq!(answered((0, 0)), Ok(false));
        assert_eq!(answered((0, 0xa5)), Err(ImageRefusal::UNKNOWN));
        assert_eq!(answered((8, 0)).map_err(ImageRefusal::number), Err(8));
        assert_eq!(answered((8, 1)).map_err(ImageRefusal::number), Err(8));
        assert_eq!(answered((9, 1)), Err(ImageRefusal::UNKNOWN));
        assert_eq!(answered((usize::MAX, 1)), Err(ImageRefusal::UNKNOWN));
    }
}
