/// Whether the field lies in a set: from its start on, fewer than its size away.
fn is_repetitive_field(descriptor: &'static PgnDescriptor, field_idx: usize) -> bool {
    descriptor.repeating_field_sets.iter().any(|set| {
        set.start_field_index <= field_idx && field_idx - set.start_field_index < set.size
    })
}
