use crate::items::{Item, Measure, Order};
use crate::refusal::{heeded, Refusal};
use crate::{raw, ASK_LINE, ITEM, MOST_CLAIMS};

/// A tablet's list of the claims near a probe, from the nearest on or from the farthest, with the room that its items lie in.
///
/// Send what [`write_ask`](List::write_ask) gives to the office and [`take`](List::take) what comes back, in any order and as often
/// as the link likes. A line that is not to the present ask is refused and changes nothing.
///
/// ```
/// use nearby::{List, Measure, Order, Refusal, Table};
///
/// let mut table = Table::new(7, Measure::CityBlock, 1, 10)?;
/// table.enter(&[0x65, 0x66, 0x67], &[2, 3, 9])?;
/// let mut list = List::open(Order::Near, 7, Measure::CityBlock, &[4], u64::MAX, 2)?;
///
/// let answer = table.answer(&list.write_ask(2)?)?;
/// assert_eq!(list.take(&answer)?, 2);
/// // The same line once more is no longer to the present ask.
/// assert_eq!(list.take(&answer), Err(Refusal::NotToPresentAsk));
///
/// // The room is for two items: the third claim needs more.
/// let answer = table.answer(&list.write_ask(2)?)?;
/// assert_eq!(list.take(&answer), Err(Refusal::ListRoomTooSmall));
/// list.grow(16);
/// assert_eq!(list.take(&answer)?, 1);
/// assert!(list.is_complete());
///
/// // A list from the far end writes another kind of line, and takes no line of this one.
/// let mut far = List::open(Order::Far, 7, Measure::CityBlock, &[4], u64::MAX, 3)?;
/// assert_eq!(far.take(&answer), Err(Refusal::NotThisKind));
/// far.take(&table.answer(&far.write_ask(3)?)?)?;
/// assert!(far.items().map(|item| item.number).eq([2, 0, 1]));
/// // No claim follows the three, so this page is the last.
/// assert!(far.is_complete());
/// # Ok::<(), Refusal>(())
/// ```
#[derive(Clone, Debug)]
pub struct List {
    list: raw::List,
    order: Order,
    measure: Measure,
    room: Vec<u64>,
}

impl List {
    /// Opens a list on a table, in an order, for a probe, whose length is d, and a reach, with room for so many items. No list has
    /// more than 4,096 items, so more room is not kept; [`grow`](List::grow) makes more.
    ///
    /// Refused with [`Refusal::OutOfRange`] where the probe has not 1 to 8 coordinates.
    pub fn open(order: Order, table: u32, measure: Measure, probe: &[i32], reach: u64, room: usize) -> Result<List, Refusal> {
        let d = probe.len();
        // Safety: the probe is alive and only read.
        let opened = unsafe { raw::nearby_open_list(order.flag(), table, measure.number(), d, probe.as_ptr(), d, reach) };
        heeded(opened.refusal)?;
        let mut list = List { list: opened.list, order, measure, room: Vec::new() };
        list.grow(room);
        Ok(list)
    }

    /// Makes room for so many items in all; it never makes less. After [`Refusal::ListRoomTooSmall`] grow and take the line again.
    pub fn grow(&mut self, items: usize) {
        let length = items.min(MOST_CLAIMS) * ITEM;
        if length > self.room.len() {
            self.room.resize(length, 0);
        }
    }

    /// For how many items there is room in all.
    pub fn room(&self) -> usize {
        self.room.len() / ITEM
    }

    /// The list's present ask line, of its order's kind, for a page of `size` claims, 1 to 16.
    ///
    /// Refused with [`Refusal::Complete`] and [`Refusal::PageSize`].
    pub fn write_ask(&self, size: usize) -> Result<Vec<u8>, Refusal> {
        let mut out = [0; ASK_LINE];
        // Safety: the room is alive and only read; `out` is borrowed mutably.
        let written =
            unsafe { raw::nearby_write_ask(self.list, self.room.as_ptr(), self.room.len(), size, out.as_mut_ptr(), out.len()) };
        heeded(written.refusal)?;
        Ok(out[..written.length].to_vec())
    }

    /// Takes an answer line of the list's order and gives how many items were joined.
    ///
    /// Refused with [`Refusal::NotALine`], [`Refusal::NotThisKind`], [`Refusal::Complete`], [`Refusal::NotToPresentAsk`],
    /// [`Refusal::PageDoesNotHold`] and [`Refusal::ListRoomTooSmall`].
    pub fn take(&mut self, line: &[u8]) -> Result<usize, Refusal> {
        // Safety: the room is borrowed mutably; the line is alive and only read.
        let taken = unsafe { raw::nearby_take(self.list, self.room.as_mut_ptr(), self.room.len(), line.as_ptr(), line.len()) };
        heeded(taken.refusal)?;
        let joined = taken.list.count - self.list.count;
        self.list = taken.list;
        Ok(joined)
    }

    /// The items so far, in the list's order.
    pub fn items(&self) -> impl ExactSizeIterator<Item = Item> + DoubleEndedIterator + '_ {
        self.room[..self.len() * ITEM].chunks_exact(ITEM).map(Item::from_numbers)
    }

    /// How many items the list has so far.
    pub fn len(&self) -> usize {
        self.list.count
    }

    /// Whether the list has no item so far.
    pub fn is_empty(&self) -> bool {
        self.len() == 0
    }

    /// Whether all claims of the snapshot within reach are there.
    pub fn is_complete(&self) -> bool {
        self.list.complete != 0
    }

    /// How many claims the table held when the first page was answered, once that page was taken.
    pub fn snapshot(&self) -> Option<u64> {
        (self.list.started != 0).then_some(self.list.snapshot)
    }

    /// The number of the table that the list is of.
    pub fn table(&self) -> u32 {
        self.list.table
    }

    /// The list's order.
    pub fn order(&self) -> Order {
        self.order
    }

    /// The list's measure.
    pub fn measure(&self) -> Measure {
        self.measure
    }

    /// The list's probe.
    pub fn probe(&self) -> &[i32] {
        &self.list.probe[..self.list.d]
    }

    /// The list's reach.
    pub fn reach(&self) -> u64 {
        self.list.reach
    }
}
