//! References that are no longer new: which runs are refused for them, and which are not.

mod common;

use std::collections::HashSet;

use common::{drawn, filled, reference, Seeded, Style};
use nearby::{raw, List, Measure, Order, Refusal, Table};

const REPEATED: Result<(), Refusal> = Err(Refusal::RepeatedReference);

/// The examples' table; its capacity leaves three claims free.
fn examples() -> Table {
    let mut table = Table::new(7, Measure::CityBlock, 1, 8).unwrap();
    table.enter(&[101, 102, 103, 104, 105], &[2, 3, 9, 6, 5]).unwrap();
    table
}

#[test]
fn runs_by_hand() {
    let full = Err(Refusal::OverCapacity);
    for (run, expected) in [
        (&[][..], Ok(())),
        (&[106], Ok(())),
        (&[106, 107, 108], Ok(())),
        (&[0, u32::MAX], Ok(())),
        // A claim's of the table, wherever either stands.
        (&[101], REPEATED),
        (&[105], REPEATED),
        (&[103, 106, 107], REPEATED),
        (&[106, 103, 107], REPEATED),
        (&[106, 107, 103], REPEATED),
        // Twice in the run, side by side or not.
        (&[106, 106], REPEATED),
        (&[106, 107, 106], REPEATED),
        (&[0, 1, 0], REPEATED),
        (&[u32::MAX, 1, u32::MAX], REPEATED),
        // More than the capacity leaves free.
        (&[106, 107, 108, 109], full),
        (&[106, 107, 108, 101], REPEATED),
        (&[106, 107, 108, 106], REPEATED),
    ] {
        let mut table = examples();
        let before = table.clone().into_parts();
        assert_eq!(table.enter(run, &vec![4; run.len()]), expected, "{run:?}");
        assert_eq!(table.len(), 5 + if expected.is_ok() { run.len() } else { 0 });
        if expected.is_err() {
            assert_eq!(table.into_parts(), before);
        }
    }
}

/// A coordinate too many or too few is told before a reference that is not new.
#[test]
fn lengths_are_told_first() {
    let mut table = examples();
    for run in [&[101][..], &[106, 106]] {
        assert_eq!(table.enter(run, &vec![4; run.len() + 1]), Err(Refusal::WrongLength));
        assert_eq!(table.enter(run, &vec![4; run.len() - 1]), Err(Refusal::WrongLength));
    }
    assert_eq!(table.len(), 5);
}

/// A table that holds references twice is sound, answers, and takes what is new to it; its own come in no more.
#[test]
fn tables_that_hold_repeats() {
    let from = &mut Seeded(51);
    for apart in [1, 2, 13, 29] {
        let (table, _) = filled(from, Measure::CityBlock, 2, 31, 30, Style::Tied);
        let (header, mut references, coordinates, nodes) = table.into_parts();
        (apart..30).for_each(|claim| references[claim] = references[claim - apart]);
        let held: HashSet<u32> = references[..30].iter().copied().collect();
        assert_eq!(held.len(), apart);
        let mut table = Table::from_parts(header, references.clone(), coordinates, nodes).unwrap();
        for order in Order::ALL {
            let mut list = List::open(order, table.number(), table.measure(), &[0, 1], u64::MAX, 30).unwrap();
            while !list.is_complete() {
                list.take(&table.answer(&list.write_ask(7).unwrap()).unwrap()).unwrap();
            }
            assert_eq!(list.len(), 30);
            assert!(list.items().all(|item| item.reference == references[usize::from(item.number)]));
        }
        held.iter().for_each(|&own| assert_eq!(table.enter(&[own], &[0, 0]), REPEATED));
        let fresh = reference(&table, 30);
        assert_eq!((table.enter(&[fresh], &[0, 0]), table.enter(&[fresh], &[0, 0]), table.len()), (Ok(()), REPEATED, 31));
    }
}

/// Runs of few references, beside a set of those that were entered.
#[test]
fn runs_drawn_on_purpose() {
    let from = &mut Seeded(52);
    let (mut entered, mut repeated, mut too_long) = (0, 0, 0);
    for round in 0..300 {
        let (d, capacity) = (1 + round % 8, 1 + from.below(60));
        let mut table = Table::new(from.next() as u32, Measure::ALL[round % 3], d, capacity).unwrap();
        let mut known = HashSet::new();
        for _ in 0..30 {
            let run: Vec<u32> = (0..from.below(8)).map(|_| from.below(400) as u32).collect();
            let mut joined = known.clone();
            let new = run.iter().filter(|&&reference| joined.insert(reference)).count() == run.len();
            let fits = known.len() + run.len() <= capacity;
            let expected = match (new, fits) {
                (false, _) => REPEATED,
                (true, false) => Err(Refusal::OverCapacity),
                (true, true) => Ok(()),
            };
            assert_eq!(table.enter(&run, &drawn(from, Style::Tied, run.len() * d)), expected);
            match expected {
                Ok(()) => (known, entered) = (joined, entered + 1),
                REPEATED => repeated += 1,
                _ => too_long += 1,
            }
            assert_eq!(table.len(), known.len());
        }
    }
    assert!(entered >= 1500 && repeated >= 800 && too_long >= 1500, "{entered} {repeated} {too_long}");
}

/// Runs that are longer than any table: a single pair is told from none at all.
#[test]
fn runs_longer_than_a_table() {
    let mut table = examples();
    let run: Vec<u32> = (0..10_000).map(|claim| reference(&table, claim)).collect();
    assert_eq!(table.enter(&run, &[0; 10_000]), Err(Refusal::OverCapacity));
    for (first, second) in [(0, 9_999), (4_095, 4_096), (0, 4_096), (4_096, 8_192), (9_998, 9_999)] {
        let mut pair = run.clone();
        pair[second] = pair[first];
        assert_eq!(table.enter(&pair, &[0; 10_000]), REPEATED, "{first} and {second}");
        pair[second] = 103;
        assert_eq!(table.enter(&pair, &[0; 10_000]), REPEATED, "{second}");
    }
    assert_eq!(table.len(), 5);
}

/// A caller's own memory: what it holds behind the claims is no reference, and a refusal leaves every byte.
#[test]
fn memory_of_the_caller() {
    let (mut references, mut coordinates, mut nodes) = ([106; 6], [4; 4], [9; 24]);
    let mut enter = |table, given: &[u32], points: &[i32]| {
        // Safety: every pointer is that of an array or a slice, with its length, and the three that are written are arrays of their own.
        let entered = unsafe {
            raw::nearby_enter(
                table,
                references.as_mut_ptr(),
                references.len(),
                coordinates.as_mut_ptr(),
                coordinates.len(),
                nodes.as_mut_ptr(),
                nodes.len(),
                given.as_ptr(),
                given.len(),
                points.as_ptr(),
                points.len(),
            )
        };
        (entered, (references, coordinates, nodes))
    };
    let empty = raw::Table { number: 7, measure: 1, d: 1, capacity: 4, count: 0, used: 0 };
    let (entered, _) = enter(empty, &[101, 102], &[2, 3]);
    assert_eq!((entered.refusal, entered.table.count), (0, 2));
    let (entered, memory) = enter(entered.table, &[106], &[5]);
    assert_eq!((entered.refusal, entered.table.count, memory.0), (0, 3, [101, 102, 106, 106, 106, 106]));
    for (given, points) in [(&[106][..], &[6][..]), (&[107, 107], &[6, 7]), (&[101, 107], &[6, 7])] {
        let (refused, after) = enter(entered.table, given, points);
        assert_eq!((refused, after), (raw::Tabled { refusal: 17, ..Default::default() }, memory));
    }
}
