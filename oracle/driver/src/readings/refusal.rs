//! What a refusal carries, in numbers and in text.
use model::Refusal;
use model::reading::Fault;

/// What a refusal carries, 0 where it carries less; a rule as its number.
pub fn carried(fault: Fault) -> [u64; 3] {
    let mut all = listed(fault);
    all.resize(3, 0);
    [all[0], all[1], all[2]]
}

/// What a refusal carries and no more.
pub fn listed(fault: Fault) -> Vec<u64> {
    match fault {
        Fault::Bits { field, refusal } => [vec![field as u64], refusal.carried()].concat(),
        Fault::Cut { field } | Fault::NoRoom { field } => vec![field as u64],
        Fault::Elements {
            set,
            count,
            maximum,
        } => vec![set as u64, count, maximum as u64],
        Fault::Length(length) => vec![length as u64],
        Fault::Table((letter, index)) => vec![u64::from(letter) - 96, index as u64],
    }
}

/// What refusal 2 counts, in bits; 0 of any other.
pub fn unit(fault: Fault) -> u64 {
    match fault {
        Fault::Bits { refusal, .. } => refusal.unit(),
        _ => 0,
    }
}

/// The refusal of a number, if it carries just these and counts in its unit.
pub fn fault(number: u32, values: [u64; 3], unit_told: u64) -> Option<Fault> {
    let [one, two, three] = values;
    let field = one as usize;
    let bits = |refusal| Fault::Bits { field, refusal };
    let (asked, available) = (two as usize, three as usize);
    let fault = match number {
        1 => bits(Refusal::Width {
            max: u32::try_from(two).ok()?,
            width: u32::try_from(three).ok()?,
        }),
        2 if unit_told == 8 => bits(Refusal::BeyondBytes { asked, available }),
        2 => bits(Refusal::BeyondBits { asked, available }),
        3 => bits(Refusal::Unaligned {
            cursor: two as usize,
        }),
        4 => Fault::Cut { field },
        5 => Fault::Elements {
            set: one as usize,
            count: two,
            maximum: three as usize,
        },
        7 => Fault::Length(one as usize),
        8 => {
            let letter = u8::try_from(one).ok()?.checked_add(b'a' - 1)?;
            Fault::Table((letter.into(), two as usize))
        }
        9 => Fault::NoRoom { field },
        _ => return None,
    };
    (carried(fault) == values && unit_told == unit(fault)).then_some(fault)
}

/// `NUMBER CARRIED...`; a field of 1 to 4 comes first, and a rule is its letter.
pub fn text(fault: Fault) -> String {
    if let Fault::Table((letter, index)) = fault {
        return format!("8 {letter} {index}");
    }
    let carried = listed(fault).into_iter();
    let carried: String = carried.map(|value| format!(" {value}")).collect();
    format!("{}{carried}", fault.number())
}

/// The refusal of such a text. It does not tell the unit of 2, and what it is held against does not either.
pub fn parsed(told: &str) -> Option<Fault> {
    let (number, rest) = told.split_once(' ')?;
    let values = rest.split(' ').map(|word| match word.as_bytes() {
        [letter @ b'a'..=b'h'] if number == "8" => Some(u64::from(letter - b'a' + 1)),
        _ => word.parse().ok(),
    });
    let mut values: Vec<u64> = values.collect::<Option<_>>()?;
    values.resize(3, 0);
    let unit_told = u64::from(number == "2");
    let fault = fault(number.parse().ok()?, values.try_into().ok()?, unit_told)?;
    (text(fault) == told).then_some(fault)
}
