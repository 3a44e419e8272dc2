use crate::raw;

/// How far two points are apart.
///
/// ```
/// use nearby::Measure;
///
/// assert_eq!(Measure::Maximum.number(), 2);
/// assert_eq!(Measure::from_number(3), Some(Measure::Hamming));
/// assert_eq!(Measure::from_number(4), None);
/// ```
#[derive(Clone, Copy, Debug, PartialEq, Eq, Hash)]
#[repr(u8)]
pub enum Measure {
    /// How far the coordinates differ, added up.
    CityBlock = 1,
    /// How far that coordinate differs that differs most.
    Maximum = 2,
    /// How many coordinates are not the same.
    Hamming = 3,
}

impl Measure {
    /// All three, in the order of their numbers.
    pub const ALL: [Measure; 3] = [Measure::CityBlock, Measure::Maximum, Measure::Hamming];

    /// The number that lines and headers have for it, 1 to 3.
    pub fn number(self) -> u8 {
        self as u8
    }

    /// The measure of a number, where it is one of 1 to 3.
    pub fn from_number(number: u8) -> Option<Measure> {
        Measure::ALL.into_iter().find(|measure| measure.number() == number)
    }
}

/// From which end claims are listed. The reach bounds both from above.
///
/// ```
/// use nearby::Order;
///
/// assert_eq!((Order::Near.flag(), Order::Far.flag()), (0, 1));
/// assert_eq!(Order::from_flag(255), Order::Far);
/// ```
#[derive(Clone, Copy, Debug, PartialEq, Eq, Hash)]
#[repr(u8)]
pub enum Order {
    /// Smaller distance first, then smaller number.
    Near = 0,
    /// Larger distance first, then smaller number.
    Far = 1,
}

impl Order {
    /// Both, near first.
    pub const ALL: [Order; 2] = [Order::Near, Order::Far];

    /// The flag that the bare calls take for it.
    pub fn flag(self) -> u8 {
        self as u8
    }

    /// The order of a flag: anything but 0 is far.
    pub fn from_flag(flag: u8) -> Order {
        match flag {
            0 => Order::Near,
            _ => Order::Far,
        }
    }
}

/// A claim as a question finds it.
#[derive(Clone, Copy, Debug, PartialEq, Eq, Hash)]
pub struct Item {
    /// The claim's number in its table: claims are counted from 0, as they are entered.
    pub number: u16,
    /// The claim's reference.
    pub reference: u32,
    /// How far the claim is from the probe.
    pub distance: u64,
}

impl Item {
    /// The item as a mark: a page after it goes on behind this item, in either order.
    pub fn mark(&self) -> Mark {
        Mark { distance: self.distance, number: self.number.into() }
    }

    /// An item from three numbers that the library gave: numbers of claims are below 4,096, and references have 32 bits.
    pub(crate) fn from_numbers(numbers: &[u64]) -> Item {
        Item { number: numbers[0] as u16, reference: numbers[1] as u32, distance: numbers[2] }
    }

    /// The item as three numbers.
    pub(crate) fn numbers(&self) -> [u64; 3] {
        [self.number.into(), self.reference.into(), self.distance]
    }
}

/// Where a claim stands, by its distance and number. Marks compare in near order: smaller distance first, then smaller number.
#[derive(Clone, Copy, Debug, PartialEq, Eq, PartialOrd, Ord, Hash)]
pub struct Mark {
    /// A distance from the probe.
    pub distance: u64,
    /// A claim's number.
    pub number: u64,
}

/// Where a page starts.
#[derive(Clone, Copy, Debug, PartialEq, Eq, Hash)]
pub enum Place {
    /// At the start: the table's present count is the snapshot.
    Start,
    /// After a claim's mark, among the first so many claims.
    After {
        /// How many of the table's claims count.
        snapshot: u64,
        /// The mark: the distance and number of a claim of the snapshot within reach.
        mark: Mark,
    },
}

impl Place {
    pub(crate) fn start(self) -> raw::Start {
        match self {
            Place::Start => raw::Start::default(),
            Place::After { snapshot, mark } => raw::Start { from: 1, snapshot, distance: mark.distance, number: mark.number },
        }
    }
}

/// A page of claims, in the order that was asked for.
#[derive(Clone, Debug, PartialEq, Eq)]
pub struct Page {
    /// The claims.
    pub items: Vec<Item>,
    /// Whether no claim follows the page; a full one may be the last too.
    pub last: bool,
    /// How many of the table's claims counted.
    pub snapshot: u64,
}

impl Page {
    /// Where the next page of the same order starts, unless this one is the last.
    pub fn next(&self) -> Option<Place> {
        let mark = self.items.last()?.mark();
        (!self.last).then_some(Place::After { snapshot: self.snapshot, mark })
    }
}
