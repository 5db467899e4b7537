//! A call, which prints itself as a line of the script language.

use std::fmt::{self, Display, Formatter};

use oracle::Limits;

use crate::layout::limit_words;

/// The ledgers of a script.
pub const PLACES: usize = 4;

/// What is charged before the call, and the limit. In a line stands the room alone: its meter begins at 0.
#[derive(Clone, Copy, Debug, PartialEq, Eq)]
pub struct Meter {
    pub charged: u64,
    pub limit: u64,
}

impl Meter {
    /// A meter that begins at 0.
    pub fn fresh(limit: u64) -> Self {
        Self { charged: 0, limit }
    }

    /// The ticks that are left. One past its limit has none.
    pub fn room(self) -> u64 {
        self.limit.saturating_sub(self.charged)
    }
}

/// A region as lists of atoms. An atom at A or above makes it none.
#[derive(Clone, Debug, Default, PartialEq, Eq)]
pub struct Region {
    pub held: Vec<u64>,
    pub cut: Vec<u64>,
}

/// A number that is set between calls, in both ledgers alike.
#[derive(Clone, Copy, Debug, PartialEq, Eq)]
pub enum Field {
    Remaining,
    Sharing,
    Born,
    Evicted,
    Deliveries,
    Seeded,
    Hits(usize),
    Unshared(usize),
}

/// Which ledger of a call.
#[derive(Clone, Copy, Debug, PartialEq, Eq)]
pub enum Role {
    Tier,
    Store,
}

/// A lent slice.
#[derive(Clone, Copy, Debug, PartialEq, Eq)]
pub enum Slice {
    Slots(Role),
    Postings(Role),
    Held,
    Cut,
    /// The answer buffer of Candidates, and the first scratch of Close.
    Rows,
    Atoms,
}

/// A change of what is lent, that makes it unfit.
#[derive(Clone, Copy, Debug, PartialEq, Eq)]
pub enum Wound {
    Head {
        role: Role,
        index: usize,
        word: u64,
    },
    Word {
        slice: Slice,
        index: usize,
        word: u64,
    },
    Length {
        slice: Slice,
        length: usize,
    },
}

/// A call, or what is done between calls.
#[derive(Clone, Debug, PartialEq, Eq)]
pub enum Call {
    Make {
        place: usize,
        limits: Limits,
        number: u64,
    },
    Offer {
        place: usize,
        meter: Meter,
        conditions: Vec<u64>,
        outputs: Vec<u64>,
        source: u64,
    },
    Hit {
        place: usize,
        position: u64,
    },
    Begin {
        place: usize,
    },
    Candidates {
        place: usize,
        meter: Meter,
        atoms: Vec<u64>,
    },
    Deduce {
        place: usize,
        meter: Meter,
        position: u64,
        region: Region,
    },
    Next {
        place: usize,
        meter: Meter,
        position: u64,
        cursor: [u64; 4],
        region: Region,
    },
    Seed {
        tier: usize,
        store: usize,
        meter: Meter,
    },
    Deliver {
        tier: usize,
        store: usize,
        meter: Meter,
    },
    Close {
        place: usize,
        meter: Meter,
        region: Region,
    },
    Decide {
        atoms: u64,
        atom: u64,
        value: bool,
        region: Region,
    },
    /// No call: a number of a ledger is set.
    Set {
        place: usize,
        field: Field,
        value: u64,
    },
    /// A call with unfit words lent, which the script language cannot say.
    Unfit {
        call: Box<Call>,
        wounds: Vec<Wound>,
    },
}

impl Call {
    pub const NAMES: [&'static str; 11] = [
        "make",
        "offer",
        "hit",
        "begin",
        "candidates",
        "deduce",
        "next",
        "seed",
        "deliver",
        "close",
        "decide",
    ];

    /// The place of its operation in `NAMES`. Of what is no call there is none.
    pub fn operation(&self) -> Option<usize> {
        let place = match self {
            Self::Make { .. } => 0,
            Self::Offer { .. } => 1,
            Self::Hit { .. } => 2,
            Self::Begin { .. } => 3,
            Self::Candidates { .. } => 4,
            Self::Deduce { .. } => 5,
            Self::Next { .. } => 6,
            Self::Seed { .. } => 7,
            Self::Deliver { .. } => 8,
            Self::Close { .. } => 9,
            Self::Decide { .. } => 10,
            Self::Set { .. } => return None,
            Self::Unfit { call, .. } => return call.operation(),
        };
        Some(place)
    }

    /// The ledgers that it names: the tier, and the store of a transfer.
    pub fn places(&self) -> (Option<usize>, Option<usize>) {
        match self {
            Self::Make { place, .. }
            | Self::Offer { place, .. }
            | Self::Hit { place, .. }
            | Self::Begin { place }
            | Self::Candidates { place, .. }
            | Self::Deduce { place, .. }
            | Self::Next { place, .. }
            | Self::Close { place, .. }
            | Self::Set { place, .. } => (Some(*place), None),
            Self::Seed { tier, store, .. } | Self::Deliver { tier, store, .. } => {
                (Some(*tier), Some(*store))
            }
            Self::Decide { .. } => (None, None),
            Self::Unfit { call, .. } => call.places(),
        }
    }

    /// The ledger that an offer or a transfer may add rows to.
    pub fn receiver(&self) -> Option<usize> {
        match self {
            Self::Offer { place, .. } => Some(*place),
            Self::Seed { tier, .. } => Some(*tier),
            Self::Deliver { store, .. } => Some(*store),
            _ => None,
        }
    }

    pub fn meter(&self) -> Option<Meter> {
        self.clone().meter_mut().copied()
    }

    pub fn meter_mut(&mut self) -> Option<&mut Meter> {
        match self {
            Self::Offer { meter, .. }
            | Self::Candidates { meter, .. }
            | Self::Deduce { meter, .. }
            | Self::Next { meter, .. }
            | Self::Seed { meter, .. }
            | Self::Deliver { meter, .. }
            | Self::Close { meter, .. } => Some(meter),
            Self::Unfit { call, .. } => call.meter_mut(),
            _ => None,
        }
    }

    /// The account that the call pays from.
    pub fn account(&self) -> Option<Field> {
        match self {
            Self::Offer { .. } => Some(Field::Remaining),
            Self::Seed { .. } | Self::Deliver { .. } => Some(Field::Sharing),
            _ => None,
        }
    }
}

/// A list with commas; `-` where it is empty.
struct List<'a>(&'a [u64]);

impl Display for List<'_> {
    fn fmt(&self, f: &mut Formatter<'_>) -> fmt::Result {
        if self.0.is_empty() {
            return f.write_str("-");
        }
        for (place, number) in self.0.iter().enumerate() {
            write!(f, "{}{number}", if place == 0 { "" } else { "," })?;
        }
        Ok(())
    }
}

impl Display for Region {
    fn fmt(&self, f: &mut Formatter<'_>) -> fmt::Result {
        write!(f, "{} {}", List(&self.held), List(&self.cut))
    }
}

/// A line of the script language. What it has no word for stands in comments: a meter that does not begin at 0, a number
/// set between calls, unfit words lent.
impl Display for Call {
    fn fmt(&self, f: &mut Formatter<'_>) -> fmt::Result {
        match self {
            Self::Set {
                place,
                field,
                value,
            } => write!(f, "# ledger {place}: {field:?} is set to {value}"),
            Self::Unfit { call, wounds } => write!(f, "# {call}, lent with {wounds:?}"),
            call => call.line(f),
        }
    }
}

impl Call {
    /// The line: the name, the ledgers, the meter's room, and what each call has besides.
    fn line(&self, f: &mut Formatter<'_>) -> fmt::Result {
        let meter = self.meter();
        if let Some(Meter { charged, limit }) = meter.filter(|meter| meter.charged != 0) {
            writeln!(f, "# the meter below: {charged} charged, limit {limit}")?;
        }
        let name = self.operation().map_or("", |place| Self::NAMES[place]);
        let (tier, store) = self.places();
        let first = tier.into_iter().chain(store).map(|place| place as u64);
        let numbers = first.chain(meter.map(Meter::room));
        f.write_str(name)?;
        numbers
            .into_iter()
            .try_for_each(|number| write!(f, " {number}"))?;
        self.rest(f)
    }

    fn rest(&self, f: &mut Formatter<'_>) -> fmt::Result {
        match self {
            Self::Make { limits, number, .. } => {
                let words = limit_words(limits).into_iter().chain([*number]);
                words.into_iter().try_for_each(|word| write!(f, " {word}"))
            }
            Self::Offer {
                conditions,
                outputs,
                source,
                ..
            } => {
                write!(f, " {} {}", List(conditions), List(outputs))?;
                // The last word may be left out.
                match source {
                    0 => Ok(()),
                    source => write!(f, " {source}"),
                }
            }
            Self::Hit { position, .. } => write!(f, " {position}"),
            Self::Candidates { atoms, .. } => write!(f, " {}", List(atoms)),
            Self::Deduce {
                position, region, ..
            } => write!(f, " {position} {region}"),
            Self::Next {
                position,
                cursor,
                region,
                ..
            } => write!(f, " {position} {} {region}", List(cursor)),
            Self::Close { region, .. } => write!(f, " {region}"),
            Self::Decide {
                atoms,
                atom,
                value,
                region,
            } => write!(f, " {atoms} {atom} {} {region}", u8::from(*value)),
            _ => Ok(()),
        }
    }
}
