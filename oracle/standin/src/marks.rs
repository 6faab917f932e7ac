//! The marks, single or double, that document 01 puts beside a resolution. The Rust's descriptor has no
//! place for them and asks `scaled_value_fits_f32` by width, sign and resolution, so the marks are lent
//! for the length of a call, under that same key. Two fields of a table that share the key have to
//! share the mark.
use std::cell::RefCell;

/// A mark, under what `scaled_value_fits_f32` is asked with.
#[derive(Clone, Copy, Debug)]
pub struct Marked {
    pub bits: u32,
    pub signed: bool,
    pub resolution: f32,
    pub single: bool,
}

impl Marked {
    fn is_for(&self, bits: u32, signed: bool, resolution: f32) -> bool {
        self.bits == bits
            && self.signed == signed
            && self.resolution.to_bits() == resolution.to_bits()
    }
}

thread_local! {
    static LENT: RefCell<Vec<Marked>> = const { RefCell::new(Vec::new()) };
}

/// Makes a call with the marks of its fields at hand.
pub fn with<R>(marks: &[Marked], call: impl FnOnce() -> R) -> R {
    LENT.with_borrow_mut(|lent| {
        lent.clear();
        lent.extend_from_slice(marks);
    });
    let answer = call();
    LENT.with_borrow_mut(Vec::clear);
    answer
}

/// Whether the field is marked single. A field whose mark was not lent is a fault of the caller.
pub(crate) fn is_single(bits: u32, signed: bool, resolution: f32) -> bool {
    LENT.with_borrow(|lent| {
        lent.iter()
            .find(|marked| marked.is_for(bits, signed, resolution))
            .map(|marked| marked.single)
            .expect("no mark was lent for this field")
    })
}
