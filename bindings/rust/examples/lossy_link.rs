//! Loads two lists, one from its near end and one from its far end, over a link that loses, repeats, delays and reorders lines, while
//! the table grows.
//!
//!     cargo run --example lossy_link [SEED [CLAIMS [PERCENT LOST]]]

use std::cmp::Reverse;
use std::env;
use std::error::Error;
use std::io::{stderr, IsTerminal, Write};
use std::process::ExitCode;

use nearby::{List, Measure, Order, Refusal, Table};

const NUMBER: u32 = 7;
const PROBE: [i32; 2] = [0, 0];
const REACH: u64 = 1500;
const PAGE: usize = 8;
/// A tablet that heard nothing new for so long asks again.
const PATIENCE: u64 = 25;
const SLOWEST: u64 = 40;
const SHOWN_EVERY: u64 = 20;

/// splitmix64: the same seed gives the same run.
struct Seeded(u64);

impl Seeded {
    fn below(&mut self, n: u64) -> u64 {
        self.0 = self.0.wrapping_add(0x9e37_79b9_7f4a_7c15);
        let mut z = self.0;
        z = (z ^ (z >> 30)).wrapping_mul(0xbf58_476d_1ce4_e5b9);
        z = (z ^ (z >> 27)).wrapping_mul(0x94d0_49bb_1331_11eb);
        (z ^ (z >> 31)) % n
    }
}

/// Lines under way, each with the time at which it arrives.
struct Link {
    from: Seeded,
    loss: u64,
    under_way: Vec<(u64, Vec<u8>)>,
    sent: usize,
    lost: usize,
    repeated: usize,
}

impl Link {
    fn send(&mut self, now: u64, line: &[u8]) {
        self.sent += 1;
        if self.from.below(100) < self.loss {
            self.lost += 1;
            return;
        }
        let copies = 1 + usize::from(self.from.below(5) == 0);
        self.repeated += copies - 1;
        for _ in 0..copies {
            let arrives = now + 1 + self.from.below(SLOWEST);
            self.under_way.push((arrives, line.to_vec()));
        }
    }

    fn arrivals(&mut self, now: u64) -> Vec<Vec<u8>> {
        let (here, still): (Vec<_>, Vec<_>) = self.under_way.drain(..).partition(|(arrives, _)| *arrives <= now);
        self.under_way = still;
        here.into_iter().map(|(_, line)| line).collect()
    }
}

fn enter_some(from: &mut Seeded, table: &mut Table) -> Result<(), Refusal> {
    if table.len() < table.capacity() {
        let reference = 1000 + table.len() as u32;
        let place = [from.below(2001) as i32 - 1000, from.below(2001) as i32 - 1000];
        table.enter(&[reference], &place)?;
    }
    Ok(())
}

/// A list, and how long its tablet waits until it asks again.
struct Tablet {
    list: List,
    patience: u64,
}

impl Tablet {
    fn open(order: Order) -> Result<Tablet, Refusal> {
        Ok(Tablet { list: List::open(order, NUMBER, Measure::CityBlock, &PROBE, REACH, PAGE)?, patience: 0 })
    }

    /// The tablet asks at once where there is news, and otherwise when its patience is at an end.
    fn ask(&mut self, now: u64, link: &mut Link) -> Result<(), Refusal> {
        if self.list.is_complete() {
            return Ok(());
        }
        if self.patience == 0 {
            link.send(now, &self.list.write_ask(PAGE)?);
            self.patience = PATIENCE;
        }
        self.patience -= 1;
        Ok(())
    }

    /// Takes a line; what is late, repeated, the other list's or too much for the room is no fault.
    fn take(&mut self, line: &[u8]) -> Result<(), Refusal> {
        match self.list.take(line) {
            Ok(_) => self.patience = 0,
            Err(Refusal::NotToPresentAsk | Refusal::Complete) => {}
            // The other list has the other order, and its lines another kind.
            Err(Refusal::NotThisKind) => {}
            Err(Refusal::ListRoomTooSmall) => {
                self.list.grow(self.list.room() + 2 * PAGE);
                self.take(line)?;
            }
            Err(refused) => return Err(refused),
        }
        Ok(())
    }
}

fn show_progress(tablets: &[Tablet], table: &Table, link: &Link) {
    if stderr().is_terminal() {
        let have: usize = tablets.iter().map(|tablet| tablet.list.len()).sum();
        eprint!("\r{have} claims loaded, {} in the table, {} lines sent, {} lost ", table.len(), link.sent, link.lost);
        let _ = stderr().flush();
    }
}

/// Loads the lists to their ends; gives how long it took. What comes from the office comes to every tablet.
fn load(tablets: &mut [Tablet], table: &mut Table, link: &mut Link, from: &mut Seeded) -> Result<u64, Refusal> {
    let mut now = 0;
    while !tablets.iter().all(|tablet| tablet.list.is_complete()) {
        tablets.iter_mut().try_for_each(|tablet| tablet.ask(now, link))?;
        now += 1;
        for line in link.arrivals(now) {
            if line.starts_with(b"01") || line.starts_with(b"04") {
                let answer = table.answer(&line)?;
                link.send(now, &answer);
            } else {
                tablets.iter_mut().try_for_each(|tablet| tablet.take(&line))?;
            }
        }
        enter_some(from, table)?;
        if now % SHOWN_EVERY == 0 {
            show_progress(tablets, table, link);
        }
    }
    Ok(now)
}

/// The numbers of the first so many claims within reach, by measuring each and sorting.
fn sorted(table: &Table, order: Order, snapshot: u64) -> Vec<u16> {
    let apart = |number: usize| -> u64 {
        let place = table.claim(number).expect("the snapshot is not over the count").place;
        place.iter().zip(PROBE).map(|(a, b)| (i64::from(*a) - i64::from(b)).unsigned_abs()).sum()
    };
    let mut within: Vec<usize> = (0..snapshot as usize).filter(|&number| apart(number) <= REACH).collect();
    match order {
        Order::Near => within.sort_by_key(|&number| (apart(number), number)),
        Order::Far => within.sort_by_key(|&number| (Reverse(apart(number)), number)),
    }
    within.into_iter().map(|number| number as u16).collect()
}

/// Compares a complete list with the sort, and says what it has.
fn report(list: &List, table: &Table) -> Result<(), Box<dyn Error>> {
    let snapshot = list.snapshot().expect("a complete list has its snapshot");
    if !list.items().map(|item| item.number).eq(sorted(table, list.order(), snapshot)) {
        return Err("the list is not what measuring every claim gives".into());
    }
    let first = match list.order() {
        Order::Near => "nearest",
        Order::Far => "farthest",
    };
    println!("{} claims within {REACH} loaded, of the first {snapshot}: each once, {first} first, none missing.", list.len());
    Ok(())
}

fn argument(at: usize, otherwise: u64) -> Result<u64, Box<dyn Error>> {
    let Some(word) = env::args().nth(at) else { return Ok(otherwise) };
    word.parse().map_err(|_| format!("{word} is not a number; usage: lossy_link [SEED [CLAIMS [PERCENT LOST]]]").into())
}

fn run() -> Result<(), Box<dyn Error>> {
    let (seed, claims, loss) = (argument(1, 1)?, argument(2, 600)?, argument(3, 30)?);
    if loss > 90 {
        return Err("at most 90 percent may be lost, or the lists take forever".into());
    }
    let mut from = Seeded(seed);
    let mut table = Table::new(NUMBER, Measure::CityBlock, 2, claims as usize)?;
    for _ in 0..claims / 2 {
        enter_some(&mut from, &mut table)?;
    }
    let mut link = Link { from: Seeded(!seed), loss, under_way: Vec::new(), sent: 0, lost: 0, repeated: 0 };
    let mut tablets = [Tablet::open(Order::Near)?, Tablet::open(Order::Far)?];
    let took = load(&mut tablets, &mut table, &mut link, &mut from)?;
    if stderr().is_terminal() {
        eprintln!();
    }

    tablets.iter().try_for_each(|tablet| report(&tablet.list, &table))?;
    println!(
        "{took} ticks, {} lines sent, {} of them lost and {} repeated; the table grew to {} claims meanwhile.",
        link.sent,
        link.lost,
        link.repeated,
        table.len()
    );
    Ok(())
}

fn main() -> ExitCode {
    match run() {
        Ok(()) => ExitCode::SUCCESS,
        Err(error) => {
            eprintln!("lossy_link: {error}");
            ExitCode::FAILURE
        }
    }
}
