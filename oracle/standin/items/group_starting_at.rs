/// The set whose first field this is, with its number. Rule g lets no two sets start together.
fn group_starting_at(
    descriptor: &'static PgnDescriptor,
    field_idx: usize,
) -> Option<(usize, &'static RepeatingFieldSet)> {
    let sets = descriptor.repeating_field_sets;
    let number = sets
        .iter()
        .position(|set| set.start_field_index == field_idx)?;
    Some((number, &sets[number]))
}
