use std::error::Error;
use std::fmt;

/// Makes the refusals of one table: name, number, what the number means, and what else there is to say to a caller of this crate.
macro_rules! refusals {
    ($($name:ident = $number:literal, $meaning:literal $(, $more:literal)?;)*) => {
        /// Why a call was refused. A refused call changed nothing.
        ///
        /// ```
        /// use nearby::{Measure, Refusal, Table};
        ///
        /// let refused = Table::new(7, Measure::Hamming, 9, 100).unwrap_err();
        /// assert_eq!(refused, Refusal::OutOfRange);
        /// assert_eq!(refused.number(), 1);
        /// assert_eq!(Refusal::from_number(1), Some(refused));
        /// println!("refused {}: {refused}", refused.number());
        /// ```
        #[derive(Clone, Copy, Debug, PartialEq, Eq, PartialOrd, Ord, Hash)]
        #[repr(u8)]
        pub enum Refusal {
            $(#[doc = concat!($number, ": ", $meaning, ".", $(" ", $more)?)] $name = $number,)*
        }

        impl Refusal {
            /// Every refusal, by rising number.
            pub const ALL: &'static [Refusal] = &[$(Refusal::$name),*];

            /// What the number means: rule 8.N of `docs/RULES.md` in few words.
            pub fn meaning(self) -> &'static str {
                match self {
                    $(Refusal::$name => $meaning,)*
                }
            }
        }
    };
}

// [8.4] 4 is retired: no later refusal has it.
refusals! {
    OutOfRange = 1, "measure, d or capacity is not in its range, or a slice is too short for them";
    NotSound = 2, "the table is not sound, or the list is not";
    OverCapacity = 3, "the run has more claims than the capacity leaves free";
    WrongLength = 5, "not d coordinates in a probe or for each claim of a run, or not five numbers for each place";
    PageSize = 6, "a page size that is not 1 to 16";
    SnapshotOverCount = 7, "a snapshot of more claims than there are";
    MarkNotHeld = 8, "a mark that no claim of the snapshot has within the reach";
    NotALine = 9, "not pairs of digits, one at least, with 0A behind them, or more than 573 characters";
    NotThisKind = 10, "another kind of line, or a length or a field that this kind cannot have", "To a list, so is the other order's answer.";
    NotThisTable = 11, "the line is for another table";
    OutputTooSmall = 12, "the output room is too short";
    NotToPresentAsk = 13, "the answer is not to the list's present ask", "The line is late, repeated or another list's, which is no fault.";
    PageDoesNotHold = 14, "the answer's page does not hold";
    ListRoomTooSmall = 15, "the page does not fit what is left of the list's room", "[`List::grow`](crate::List::grow) makes room.";
    Complete = 16, "the list is complete already";
    RepeatedReference = 17, "a reference that a claim of the table has already, or that stands twice in the run", "Another tablet sent the claim before: show that one.";
}

impl Refusal {
    /// The refusal's number.
    pub fn number(self) -> u8 {
        self as u8
    }

    /// The refusal of a number, where it has one.
    pub fn from_number(number: u8) -> Option<Refusal> {
        Refusal::ALL.iter().copied().find(|refusal| refusal.number() == number)
    }
}

impl fmt::Display for Refusal {
    fn fmt(&self, f: &mut fmt::Formatter<'_>) -> fmt::Result {
        f.write_str(self.meaning())
    }
}

impl Error for Refusal {}

/// What a call of the library said: 0 is no refusal.
pub(crate) fn heeded(number: u8) -> Result<(), Refusal> {
    match number {
        0 => Ok(()),
        n => Err(Refusal::from_number(n).expect("the library gives no other number")),
    }
}
