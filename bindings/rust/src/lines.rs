use crate::items::{Item, Mark, Measure, Order, Place};
use crate::refusal::{heeded, Refusal};
use crate::{raw, ANSWER_LINE, ASK_LINE, CLAIM_LINE, ITEM};

/// An ask line as a value: a page of a table's claims is wanted. Its kind is 01 in near order and 04 in far order.
///
/// ```
/// use nearby::{Ask, Measure, Order, Place};
///
/// let (order, measure) = (Order::Near, Measure::CityBlock);
/// let ask = Ask { table: 7, order, measure, probe: vec![4], reach: 5, place: Place::Start, size: 2 };
/// let line = ask.to_line()?;
/// assert_eq!(line, b"010000000701010000000400000000000000050000000000000000000000000002\n");
/// assert_eq!(Ask::from_line(&line)?, ask);
/// assert!(Ask { order: Order::Far, ..ask }.to_line()?.starts_with(b"04"));
/// # Ok::<(), nearby::Refusal>(())
/// ```
#[derive(Clone, Debug, PartialEq, Eq)]
pub struct Ask {
    /// The table's number.
    pub table: u32,
    /// The order.
    pub order: Order,
    /// The measure.
    pub measure: Measure,
    /// The probe, 1 to 8 coordinates.
    pub probe: Vec<i32>,
    /// The reach.
    pub reach: u64,
    /// Where the page starts: a snapshot of at most 4,096 and a mark number below that.
    pub place: Place,
    /// The page size, 1 to 16.
    pub size: usize,
}

/// An answer line as a value: a page of a table's claims. Its kind is 02 in near order and 05 in far order.
///
/// ```
/// use nearby::{Answer, Item, Measure, Order};
///
/// let answer = Answer {
///     table: 7,
///     order: Order::Near,
///     measure: Measure::CityBlock,
///     probe: vec![4],
///     reach: 5,
///     snapshot: 5,
///     after: None,
///     last: false,
///     items: vec![Item { number: 1, reference: 0x66, distance: 1 }],
/// };
/// assert_eq!(Answer::from_line(&answer.to_line()?)?, answer);
/// # Ok::<(), nearby::Refusal>(())
/// ```
#[derive(Clone, Debug, PartialEq, Eq)]
pub struct Answer {
    /// The table's number.
    pub table: u32,
    /// The order.
    pub order: Order,
    /// The measure.
    pub measure: Measure,
    /// The probe, 1 to 8 coordinates.
    pub probe: Vec<i32>,
    /// The reach.
    pub reach: u64,
    /// How many claims counted, at most 4,096.
    pub snapshot: u64,
    /// The mark that the page comes after, unless it is the first.
    pub after: Option<Mark>,
    /// Whether no claim follows.
    pub last: bool,
    /// The claims, at most 16, numbered below 4,096.
    pub items: Vec<Item>,
}

/// A claim line as a value: a claim for a table.
///
/// ```
/// use nearby::{ClaimLine, Measure};
///
/// let claim = ClaimLine { table: 7, measure: Measure::CityBlock, reference: 0x65, coordinates: vec![2] };
/// let line = claim.to_line()?;
/// assert_eq!(line, b"030000000701010000006500000002\n");
/// assert_eq!(ClaimLine::from_line(&line)?, claim);
/// # Ok::<(), nearby::Refusal>(())
/// ```
#[derive(Clone, Debug, PartialEq, Eq)]
pub struct ClaimLine {
    /// The table's number.
    pub table: u32,
    /// The measure.
    pub measure: Measure,
    /// The claim's reference.
    pub reference: u32,
    /// The claim's coordinates, 1 to 8.
    pub coordinates: Vec<i32>,
}

/// A number as a field of a byte; what does not fit becomes a value that every field of a byte refuses.
fn byte(n: usize) -> u8 {
    u8::try_from(n).unwrap_or(u8::MAX)
}

/// A number as a field of two bytes; what does not fit becomes a value that snapshots and numbers refuse.
fn two_bytes(n: u64) -> u16 {
    u16::try_from(n).unwrap_or(u16::MAX)
}

/// The measure of a line that the library accepted.
fn accepted(measure: u8) -> Measure {
    Measure::from_number(measure).expect("an accepted line's measure is 1 to 3")
}

/// The line at the front of a room that a writer was lent.
fn line_of(written: raw::Written, out: &[u8]) -> Result<Vec<u8>, Refusal> {
    heeded(written.refusal)?;
    Ok(out[..written.length].to_vec())
}

fn scope(reach: u64, snapshot: u64, mark: Option<Mark>) -> raw::Scope {
    let at = mark.unwrap_or(Mark { distance: 0, number: 0 });
    raw::Scope {
        reach,
        from: mark.is_some().into(),
        snapshot: two_bytes(snapshot),
        distance: at.distance,
        number: two_bytes(at.number),
    }
}

fn mark_of(scope: &raw::Scope) -> Option<Mark> {
    (scope.from != 0).then_some(Mark { distance: scope.distance, number: scope.number.into() })
}

impl Ask {
    /// The ask's line. Refused with [`Refusal::NotThisKind`] where a field is out of its range.
    pub fn to_line(&self) -> Result<Vec<u8>, Refusal> {
        let scope = match self.place {
            Place::Start => scope(self.reach, 0, None),
            Place::After { snapshot, mark } => scope(self.reach, snapshot, Some(mark)),
        };
        let (probe, mut out) = (&self.probe, [0; ASK_LINE]);
        // Safety: the probe is alive and only read; `out` is borrowed mutably.
        let written = unsafe {
            raw::nearby_write_ask_line(
                self.order.flag(),
                self.table,
                self.measure.number(),
                byte(probe.len()),
                probe.as_ptr(),
                probe.len(),
                scope,
                byte(self.size),
                out.as_mut_ptr(),
                out.len(),
            )
        };
        line_of(written, &out)
    }

    /// Reads a line. Refused with [`Refusal::NotALine`] and [`Refusal::NotThisKind`].
    pub fn from_line(line: &[u8]) -> Result<Ask, Refusal> {
        // Safety: the line is alive and only read.
        let read = unsafe { raw::nearby_read_ask_line(line.as_ptr(), line.len()) };
        heeded(read.refusal)?;
        let ask = read.ask;
        let place = match mark_of(&ask.scope) {
            None => Place::Start,
            Some(mark) => Place::After { snapshot: ask.scope.snapshot.into(), mark },
        };
        Ok(Ask {
            table: ask.table,
            order: Order::from_flag(ask.order),
            measure: accepted(ask.measure),
            probe: ask.probe[..ask.d.into()].to_vec(),
            reach: ask.scope.reach,
            place,
            size: ask.size.into(),
        })
    }
}

impl Answer {
    /// The answer's line. Refused with [`Refusal::NotThisKind`] where a field is out of its range.
    pub fn to_line(&self) -> Result<Vec<u8>, Refusal> {
        let items: Vec<u64> = self.items.iter().flat_map(Item::numbers).collect();
        let (probe, mut out) = (&self.probe, [0; ANSWER_LINE]);
        // Safety: probe and items are alive and only read; `out` is borrowed mutably.
        let written = unsafe {
            raw::nearby_write_answer_line(
                self.order.flag(),
                self.table,
                self.measure.number(),
                byte(probe.len()),
                probe.as_ptr(),
                probe.len(),
                scope(self.reach, self.snapshot, self.after),
                self.last.into(),
                byte(self.items.len()),
                items.as_ptr(),
                items.len(),
                out.as_mut_ptr(),
                out.len(),
            )
        };
        line_of(written, &out)
    }

    /// Reads a line. Refused with [`Refusal::NotALine`] and [`Refusal::NotThisKind`].
    pub fn from_line(line: &[u8]) -> Result<Answer, Refusal> {
        // Safety: the line is alive and only read.
        let read = unsafe { raw::nearby_read_answer_line(line.as_ptr(), line.len()) };
        heeded(read.refusal)?;
        let answer = read.answer;
        let numbers = &answer.items[..usize::from(answer.count) * ITEM];
        Ok(Answer {
            table: answer.table,
            order: Order::from_flag(answer.order),
            measure: accepted(answer.measure),
            probe: answer.probe[..answer.d.into()].to_vec(),
            reach: answer.scope.reach,
            snapshot: answer.scope.snapshot.into(),
            after: mark_of(&answer.scope),
            last: answer.last != 0,
            items: numbers.chunks_exact(ITEM).map(Item::from_numbers).collect(),
        })
    }
}

impl ClaimLine {
    /// The claim's line. Refused with [`Refusal::NotThisKind`] where it has not 1 to 8 coordinates.
    pub fn to_line(&self) -> Result<Vec<u8>, Refusal> {
        let (coordinates, mut out) = (&self.coordinates, [0; CLAIM_LINE]);
        // Safety: the coordinates are alive and only read; `out` is borrowed mutably.
        let written = unsafe {
            raw::nearby_write_claim_line(
                self.table,
                self.measure.number(),
                byte(coordinates.len()),
                self.reference,
                coordinates.as_ptr(),
                coordinates.len(),
                out.as_mut_ptr(),
                out.len(),
            )
        };
        line_of(written, &out)
    }

    /// Reads a line. Refused with [`Refusal::NotALine`] and [`Refusal::NotThisKind`].
    pub fn from_line(line: &[u8]) -> Result<ClaimLine, Refusal> {
        // Safety: the line is alive and only read.
        let read = unsafe { raw::nearby_read_claim_line(line.as_ptr(), line.len()) };
        heeded(read.refusal)?;
        let claim = read.claim;
        Ok(ClaimLine {
            table: claim.table,
            measure: accepted(claim.measure),
            reference: claim.reference,
            coordinates: claim.coordinates[..claim.d.into()].to_vec(),
        })
    }
}
