impl FieldDescriptor {
    /// Document 01, "Reading a payload": not available are, for raws other than Float, all ones if
    /// unsigned or the largest positive if signed, at 2 bits or more. There is no other state.
    pub fn availability(&self, raw: u64) -> Availability {
        let bits = self.bits_length.unwrap_or(0);
        if self.kind == FieldKind::Float || bits < 2 {
            return Availability::Available;
        }
        let all_ones = u64::MAX >> (64 - bits);
        let absent = if self.is_signed == Some(true) {
            all_ones >> 1
        } else {
            all_ones
        };
        if raw == absent {
            Availability::NotAvailable
        } else {
            Availability::Available
        }
    }
}
