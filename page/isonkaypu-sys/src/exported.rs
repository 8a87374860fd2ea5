//! What the library exports, in the order of `crates/isonkaypu`: every function of it.

pub type Pass = unsafe extern "C" fn(*const u8, usize, *mut u16, *mut u32, *mut u32) -> usize;
pub type Question = unsafe extern "C" fn(*const u8, usize, *const u8, usize, *mut u8) -> usize;
pub type List = unsafe extern "C" fn(*const u8, usize, *mut u16, usize, *mut usize) -> usize;

/// Declares functions of one shape.
macro_rules! export {
    ([$($name:ident),*], $arguments:tt) => {
        unsafe extern "C" {
            $(pub fn $name $arguments -> usize;)*
        }
    };
}

export!([isonkaypu_refusal], (image: *const u8, image_len: usize));
export!(
    [isonkaypu_resolve, isonkaypu_access, isonkaypu_linear],
    (image: *const u8, image_len: usize, place: *mut u16, from: *mut u32, to: *mut u32)
);
unsafe extern "C" {
    pub fn isonkaypu_verdicts(image: *const u8, image_len: usize, numbers: *mut [usize; 12]);
}
export!(
    [isonkaypu_is_state, isonkaypu_is_declared_asset, isonkaypu_is_known_asset],
    (image: *const u8, image_len: usize, name: *const u8, name_len: usize, yes: *mut u8)
);
export!(
    [isonkaypu_list, isonkaypu_resolve_list, isonkaypu_access_list, isonkaypu_linear_list],
    (image: *const u8, image_len: usize, words: *mut u16, words_len: usize, count: *mut usize)
);
unsafe extern "C" {
    pub fn isonkaypu_why(
        image: *const u8,
        image_len: usize,
        place: usize,
        words: *mut u16,
        words_len: usize,
        count: *mut usize,
    ) -> usize;
}
