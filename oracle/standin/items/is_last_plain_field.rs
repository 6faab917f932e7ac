/// Whether the field is the last of the table, outside a set: only there may a StringFix stop early.
fn is_last_plain_field(descriptor: &'static PgnDescriptor, field_idx: usize) -> bool {
    descriptor.fields.len() == field_idx + 1 && !is_repetitive_field(descriptor, field_idx)
}
