use crate::items::{Item, Measure, Order, Page, Place};
use crate::refusal::{heeded, Refusal};
use crate::{raw, ANSWER_LINE, ITEM, MOST_CLAIMS, MOST_COORDINATES, MOST_PAGE, NODE, PLACE};

/// Ask lines that are answered in one call of the library: enough that the table's test costs little beside them.
const LINES_AT_ONCE: usize = 4096;

/// An office's table of claims, with the memory that it lies in.
///
/// A table only grows, and only by [`enter`](Table::enter), so it is always sound. Each single call on it still tests that, which
/// costs as much as building the table; whoever has many questions asks them at once, by [`nearest_many`](Table::nearest_many),
/// [`farthest_many`](Table::farthest_many), [`pages`](Table::pages) and [`answers`](Table::answers).
///
/// ```
/// use nearby::{Measure, Table};
///
/// let mut table = Table::new(7, Measure::Maximum, 2, 100)?;
/// table.enter(&[500, 501], &[0, 0, 3, 4])?;
/// let near = table.nearest(&[3, 3], u64::MAX)?.expect("the table has claims");
/// assert_eq!((near.number, near.reference, near.distance), (1, 501, 1));
/// assert_eq!(table.nearest(&[9, 9], 4)?, None);
/// # Ok::<(), nearby::Refusal>(())
/// ```
#[derive(Clone, Debug)]
pub struct Table {
    header: raw::Table,
    measure: Measure,
    references: Vec<u32>,
    coordinates: Vec<i32>,
    nodes: Vec<u64>,
}

/// A claim as it was entered.
#[derive(Clone, Copy, Debug, PartialEq, Eq)]
pub struct Claim<'a> {
    /// Its reference.
    pub reference: u32,
    /// Its coordinates.
    pub place: &'a [i32],
}

/// Calls the library on a table: the header and the three slices go in front.
macro_rules! ask {
    ($table:expr, $call:ident $(, $argument:expr)*) => {{
        let t: &Table = $table;
        // Safety: the three slices are alive and only read. Each argument behind them is a value, or a pointer and a length out of
        // one slice that lives through the call; those that are written are borrowed mutably, so they overlap nothing.
        unsafe {
            raw::$call(
                t.header,
                t.references.as_ptr(), t.references.len(),
                t.coordinates.as_ptr(), t.coordinates.len(),
                t.nodes.as_ptr(), t.nodes.len()
                $(, $argument)*
            )
        }
    }};
}

impl Table {
    /// An empty table of a number, a measure, d coordinates for each claim (1 to 8) and room for so many claims (1 to 4,096).
    ///
    /// Refused with [`Refusal::OutOfRange`] alone.
    pub fn new(number: u32, measure: Measure, d: usize, capacity: usize) -> Result<Table, Refusal> {
        // Tested before memory is asked for; the library tests it again.
        if d > MOST_COORDINATES || capacity > MOST_CLAIMS {
            return Err(Refusal::OutOfRange);
        }
        let (references, coordinates, nodes) = (vec![0; capacity], vec![0; capacity * d], vec![0; capacity * NODE]);
        // Safety: the three slices are alive and only read.
        let made = unsafe {
            raw::nearby_make_table(
                number,
                measure.number(),
                d,
                capacity,
                references.as_ptr(),
                references.len(),
                coordinates.as_ptr(),
                coordinates.len(),
                nodes.as_ptr(),
                nodes.len(),
            )
        };
        heeded(made.refusal)?;
        Ok(Table { header: made.table, measure, references, coordinates, nodes })
    }

    /// A table out of its parts, as [`into_parts`](Table::into_parts) gave them: a table that was kept somewhere comes back this way.
    ///
    /// Refused with [`Refusal::OutOfRange`] and [`Refusal::NotSound`], so that damaged parts never become a table. Parts that hold a
    /// reference twice are not damaged; [`enter`](Table::enter) only keeps one from coming again.
    ///
    /// ```
    /// use nearby::{Measure, Refusal, Table};
    ///
    /// let mut table = Table::new(7, Measure::Hamming, 1, 10)?;
    /// table.enter(&[1, 2], &[5, 6])?;
    /// let (header, references, coordinates, mut nodes) = table.into_parts();
    /// nodes[0] = 9;
    /// let damaged = Table::from_parts(header, references, coordinates, nodes);
    /// assert_eq!(damaged.unwrap_err(), Refusal::NotSound);
    /// # Ok::<(), Refusal>(())
    /// ```
    pub fn from_parts(
        header: raw::Table,
        references: Vec<u32>,
        coordinates: Vec<i32>,
        nodes: Vec<u64>,
    ) -> Result<Table, Refusal> {
        let measure = Measure::from_number(header.measure).ok_or(Refusal::OutOfRange)?;
        let table = Table { header, measure, references, coordinates, nodes };
        heeded(ask!(&table, nearby_test_table))?;
        Ok(table)
    }

    /// The header, the references, the coordinates and the nodes.
    pub fn into_parts(self) -> (raw::Table, Vec<u32>, Vec<i32>, Vec<u64>) {
        (self.header, self.references, self.coordinates, self.nodes)
    }

    /// The table's number.
    pub fn number(&self) -> u32 {
        self.header.number
    }

    /// The table's measure.
    pub fn measure(&self) -> Measure {
        self.measure
    }

    /// How many coordinates a claim has.
    pub fn d(&self) -> usize {
        self.header.d
    }

    /// How many claims have room.
    pub fn capacity(&self) -> usize {
        self.header.capacity
    }

    /// How many claims were entered.
    pub fn len(&self) -> usize {
        self.header.count
    }

    /// Whether no claim was entered.
    pub fn is_empty(&self) -> bool {
        self.len() == 0
    }

    /// The claim of a number.
    pub fn claim(&self, number: usize) -> Option<Claim<'_>> {
        (number < self.len())
            .then(|| Claim { reference: self.references[number], place: &self.coordinates[number * self.d()..][..self.d()] })
    }

    /// The nodes in use, six numbers each: left claim and right claim plus one, the two far distances, the two nodes below plus
    /// one; 0 is no claim and no room.
    pub fn nodes(&self) -> &[u64] {
        &self.nodes[..self.header.used * NODE]
    }

    /// Enters a run of claims, whole or not at all: a reference and d coordinates for each. Every reference has to be new, to the
    /// table and within the run.
    ///
    /// Refused with [`Refusal::WrongLength`], [`Refusal::RepeatedReference`] and [`Refusal::OverCapacity`], in this order: a run that
    /// repeats a reference is told so even where it is too long. Two tablets may send one claim. It is entered once, and who comes second
    /// has nothing to send again: the claim is in the table, and can be shown.
    ///
    /// ```
    /// use nearby::{Measure, Refusal, Table};
    ///
    /// let mut table = Table::new(7, Measure::CityBlock, 2, 100)?;
    /// table.enter(&[500], &[30, 41])?;
    /// assert_eq!(table.enter(&[500], &[30, 42]), Err(Refusal::RepeatedReference));
    /// let there = (0..table.len()).filter_map(|number| table.claim(number)).find(|claim| claim.reference == 500);
    /// assert_eq!(there.map(|claim| claim.place), Some(&[30, 41][..]));
    /// # Ok::<(), Refusal>(())
    /// ```
    pub fn enter(&mut self, references: &[u32], points: &[i32]) -> Result<(), Refusal> {
        // Safety: the table's memory is borrowed mutably, in three slices that do not overlap; the run is alive and only read.
        let entered = unsafe {
            raw::nearby_enter(
                self.header,
                self.references.as_mut_ptr(),
                self.references.len(),
                self.coordinates.as_mut_ptr(),
                self.coordinates.len(),
                self.nodes.as_mut_ptr(),
                self.nodes.len(),
                references.as_ptr(),
                references.len(),
                points.as_ptr(),
                points.len(),
            )
        };
        heeded(entered.refusal)?;
        self.header = entered.table;
        Ok(())
    }

    /// The nearest claim within reach, the bound included; the smallest number among equals.
    ///
    /// Refused with [`Refusal::WrongLength`] alone. It tests the table first: see [`nearest_many`](Table::nearest_many).
    pub fn nearest(&self, probe: &[i32], reach: u64) -> Result<Option<Item>, Refusal> {
        found(ask!(self, nearby_nearest, probe.as_ptr(), probe.len(), reach))
    }

    /// The farthest claim; the smallest number among equals.
    ///
    /// Refused with [`Refusal::WrongLength`] alone. It tests the table first: see [`farthest_many`](Table::farthest_many).
    pub fn farthest(&self, probe: &[i32]) -> Result<Option<Item>, Refusal> {
        found(ask!(self, nearby_farthest, probe.as_ptr(), probe.len()))
    }

    /// The first `size` claims (1 to 16) within reach from a place on, in an order.
    ///
    /// Refused with [`Refusal::WrongLength`], [`Refusal::PageSize`], [`Refusal::SnapshotOverCount`] and [`Refusal::MarkNotHeld`].
    /// It tests the table first: see [`pages`](Table::pages).
    ///
    /// ```
    /// use nearby::{Measure, Order, Place, Table};
    ///
    /// let mut table = Table::new(7, Measure::CityBlock, 1, 10)?;
    /// table.enter(&[0x65, 0x66, 0x67, 0x68, 0x69], &[2, 3, 9, 6, 5])?;
    /// for (order, sorted) in [(Order::Near, [1, 4, 0, 3, 2]), (Order::Far, [2, 0, 3, 1, 4])] {
    ///     let (mut place, mut numbers) = (Some(Place::Start), vec![]);
    ///     while let Some(at) = place {
    ///         let page = table.page(order, &[4], 5, at, 2)?;
    ///         numbers.extend(page.items.iter().map(|item| item.number));
    ///         place = page.next();
    ///     }
    ///     assert_eq!(numbers, sorted);
    /// }
    /// # Ok::<(), nearby::Refusal>(())
    /// ```
    pub fn page(&self, order: Order, probe: &[i32], reach: u64, place: Place, size: usize) -> Result<Page, Refusal> {
        let mut room = [0; MOST_PAGE * ITEM];
        let filled = ask!(
            self,
            nearby_page,
            order.flag(),
            probe.as_ptr(),
            probe.len(),
            reach,
            place.start(),
            size,
            room.as_mut_ptr(),
            room.len()
        );
        heeded(filled.refusal)?;
        Ok(self.page_of(&room[..filled.count * ITEM], filled.last != 0, place))
    }

    /// The answer line to an ask line, in the order that its kind says.
    ///
    /// Refused with [`Refusal::NotALine`], [`Refusal::NotThisKind`], [`Refusal::NotThisTable`], [`Refusal::SnapshotOverCount`] and
    /// [`Refusal::MarkNotHeld`]. It tests the table first: see [`answers`](Table::answers).
    pub fn answer(&self, line: &[u8]) -> Result<Vec<u8>, Refusal> {
        let mut out = [0; ANSWER_LINE];
        let length = self.answer_into(line, &mut out)?;
        Ok(out[..length].to_vec())
    }

    /// [`answer`](Table::answer) into a room of at least [`ANSWER_LINE`] characters; gives the line's length.
    ///
    /// Refused also with [`Refusal::OutputTooSmall`], which comes first.
    pub fn answer_into(&self, line: &[u8], out: &mut [u8]) -> Result<usize, Refusal> {
        let written = ask!(self, nearby_answer, line.as_ptr(), line.len(), out.as_mut_ptr(), out.len());
        heeded(written.refusal)?;
        Ok(written.length)
    }

    /// [`nearest`](Table::nearest) for each reach, with d coordinates of `probes` for each; the table is tested once.
    ///
    /// Refused with [`Refusal::WrongLength`] where the probes are not d for each reach.
    ///
    /// ```
    /// use nearby::{Measure, Table};
    ///
    /// let mut table = Table::new(7, Measure::CityBlock, 1, 10)?;
    /// table.enter(&[0x65, 0x66, 0x67, 0x68, 0x69], &[2, 3, 9, 6, 5])?;
    /// let near = table.nearest_many(&[4, 4, 100], &[0, 1, 200])?;
    /// assert_eq!(near.iter().map(|found| found.map(|item| item.number)).collect::<Vec<_>>(), [None, Some(1), Some(2)]);
    /// # Ok::<(), nearby::Refusal>(())
    /// ```
    pub fn nearest_many(&self, probes: &[i32], reaches: &[u64]) -> Result<Vec<Option<Item>>, Refusal> {
        let mut out = vec![0; reaches.len() * 4];
        heeded(ask!(
            self,
            nearby_many_nearest,
            probes.as_ptr(),
            probes.len(),
            reaches.as_ptr(),
            reaches.len(),
            out.as_mut_ptr(),
            out.len()
        ))?;
        Ok(out.chunks_exact(4).map(found_row).collect())
    }

    /// [`farthest`](Table::farthest) for each probe, d coordinates for each; the table is tested once.
    ///
    /// Refused with [`Refusal::WrongLength`] where the probes are not d for each.
    pub fn farthest_many(&self, probes: &[i32]) -> Result<Vec<Option<Item>>, Refusal> {
        let n = probes.len() / self.d();
        let mut out = vec![0; n * 4];
        heeded(ask!(self, nearby_many_farthest, probes.as_ptr(), probes.len(), n, out.as_mut_ptr(), out.len()))?;
        Ok(out.chunks_exact(4).map(found_row).collect())
    }

    /// [`page`](Table::page) for each reach, with d coordinates of `probes` and an order with a place for each; the table is tested
    /// once.
    ///
    /// Refused as a whole with [`Refusal::WrongLength`] where the probes are not d or the places not one for each reach, and with
    /// [`Refusal::PageSize`]. A page alone is refused with [`Refusal::SnapshotOverCount`] and [`Refusal::MarkNotHeld`].
    ///
    /// ```
    /// use nearby::{Measure, Order, Place, Table};
    ///
    /// let mut table = Table::new(7, Measure::CityBlock, 1, 10)?;
    /// table.enter(&[0x65, 0x66, 0x67, 0x68, 0x69], &[2, 3, 9, 6, 5])?;
    /// let places = [(Order::Near, Place::Start), (Order::Far, Place::Start)];
    /// let pages = table.pages(&[4, 4], &[5, 5], &places, 2)?;
    /// let numbers = |at: usize| pages[at].as_ref().unwrap().items.iter().map(|item| item.number).collect::<Vec<_>>();
    /// assert_eq!((numbers(0), numbers(1)), (vec![1, 4], vec![2, 0]));
    /// # Ok::<(), nearby::Refusal>(())
    /// ```
    pub fn pages(
        &self,
        probes: &[i32],
        reaches: &[u64],
        places: &[(Order, Place)],
        size: usize,
    ) -> Result<Vec<Result<Page, Refusal>>, Refusal> {
        let starts: Vec<u64> = places.iter().flat_map(|(order, place)| start_row(*order, place.start())).collect();
        // A size out of range is refused before the rooms are looked at.
        let width = size.min(MOST_PAGE) * ITEM;
        let mut outcomes = vec![0; reaches.len() * 3];
        let mut items = vec![0; reaches.len() * width];
        heeded(ask!(
            self,
            nearby_many_pages,
            probes.as_ptr(),
            probes.len(),
            reaches.as_ptr(),
            reaches.len(),
            starts.as_ptr(),
            starts.len(),
            size,
            outcomes.as_mut_ptr(),
            outcomes.len(),
            items.as_mut_ptr(),
            items.len()
        ))?;
        let rows = outcomes.chunks_exact(3).zip(items.chunks_exact(width)).zip(places);
        Ok(rows.map(|((outcome, row), (_, place))| self.page_row(outcome, row, *place)).collect())
    }

    /// [`answer`](Table::answer) for ask lines that stand one after another, each with its 0A; the table is tested once for every
    /// 4,096 lines. A last line without 0A is a line too, and is refused with [`Refusal::NotALine`].
    ///
    /// ```
    /// use nearby::{List, Measure, Order, Refusal, Table};
    ///
    /// let table = Table::new(7, Measure::CityBlock, 1, 10)?;
    /// let mut asks = Vec::new();
    /// for order in Order::ALL {
    ///     asks.extend(List::open(order, 7, Measure::CityBlock, &[4], 5, 16)?.write_ask(2)?);
    /// }
    /// asks.extend_from_slice(b"no line\n");
    /// let answers = table.answers(&asks)?;
    /// assert!(answers[0].is_ok() && answers[1].is_ok());
    /// assert_eq!(answers[2], Err(Refusal::NotALine));
    /// # Ok::<(), Refusal>(())
    /// ```
    pub fn answers(&self, asks: &[u8]) -> Result<Vec<Result<Vec<u8>, Refusal>>, Refusal> {
        let lines = asks.split_inclusive(|&c| c == b'\n').count().min(LINES_AT_ONCE);
        let mut outcomes = vec![0; lines * 2];
        // Room for one line even where there is none, since the library asks for that.
        let mut out = vec![0; lines.max(1) * ANSWER_LINE];
        let (mut left, mut answers) = (asks, Vec::new());
        while !left.is_empty() {
            let done = ask!(
                self,
                nearby_many_answers,
                left.as_ptr(),
                left.len(),
                outcomes.as_mut_ptr(),
                outcomes.len(),
                out.as_mut_ptr(),
                out.len()
            );
            heeded(done.refusal)?;
            let mut written = &out[..done.written];
            for outcome in outcomes[..done.lines * 2].chunks_exact(2) {
                let (line, behind) = written.split_at(outcome[1] as usize);
                written = behind;
                answers.push(heeded(outcome[0] as u8).map(|()| line.to_vec()));
            }
            left = &left[done.used..];
        }
        Ok(answers)
    }

    fn page_of(&self, numbers: &[u64], last: bool, place: Place) -> Page {
        let snapshot = match place {
            Place::Start => self.len() as u64,
            Place::After { snapshot, .. } => snapshot,
        };
        Page { items: numbers.chunks_exact(ITEM).map(Item::from_numbers).collect(), last, snapshot }
    }

    fn page_row(&self, outcome: &[u64], row: &[u64], place: Place) -> Result<Page, Refusal> {
        heeded(outcome[0] as u8)?;
        Ok(self.page_of(&row[..outcome[1] as usize * ITEM], outcome[2] != 0, place))
    }
}

fn found(found: raw::Found) -> Result<Option<Item>, Refusal> {
    heeded(found.refusal)?;
    Ok(found_row(&[found.found.into(), found.number, found.reference, found.distance]))
}

/// Whether there is a claim, and its three numbers.
fn found_row(row: &[u64]) -> Option<Item> {
    (row[0] != 0).then(|| Item::from_numbers(&row[1..]))
}

fn start_row(order: Order, start: raw::Start) -> [u64; PLACE] {
    [order.flag().into(), start.from.into(), start.snapshot, start.distance, start.number]
}
