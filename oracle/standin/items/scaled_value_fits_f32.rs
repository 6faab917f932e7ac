/// Document 01, rule d: a mark beside the resolution decides, not the width.
pub fn scaled_value_fits_f32(bits: u32, signed: bool, resolution: f32) -> bool {
    crate::marks::is_single(bits, signed, resolution)
}
