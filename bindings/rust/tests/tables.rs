//! Tables: what their nodes hold, runs, and parts that were damaged.

mod common;

use common::{drawn, filled, nodes, Seeded, Style, STYLES};
use nearby::{Measure, Refusal, Table};

#[test]
fn rooms_are_what_an_independent_builder_gives() {
    let from = &mut Seeded(1);
    for measure in Measure::ALL {
        for d in 1..=8 {
            for style in STYLES {
                for n in [0, 1, 2, 3, 9, 60] {
                    let (table, claims) = filled(from, measure, d, n + 1, n, style);
                    assert_eq!(table.nodes(), nodes(&claims), "{measure:?} d {d} {style:?} n {n}");
                }
            }
        }
    }
}

#[test]
fn rooms_of_the_largest_tables() {
    let from = &mut Seeded(2);
    for (measure, style) in Measure::ALL.into_iter().zip(STYLES) {
        let (table, claims) = filled(from, measure, 3, 4096, 4096, style);
        assert_eq!(table.nodes(), nodes(&claims));
    }
}

#[test]
fn claims_read_back() {
    let from = &mut Seeded(3);
    let (table, claims) = filled(from, Measure::Maximum, 5, 40, 33, Style::Anywhere);
    assert_eq!((table.len(), table.capacity(), table.d(), table.measure()), (33, 40, 5, Measure::Maximum));
    assert_eq!(table.number(), claims.number);
    for (i, (reference, place)) in claims.all.iter().enumerate() {
        let claim = table.claim(i).unwrap();
        assert_eq!((claim.reference, claim.place), (*reference, &place[..]));
    }
    assert_eq!(table.claim(33), None);
    assert_eq!(table.claim(usize::MAX), None);
}

#[test]
fn tables_out_of_range() {
    for d in [0, 1, 8, 9, usize::MAX] {
        for capacity in [0, 1, 4096, 4097, usize::MAX] {
            let in_range = (1..=8).contains(&d) && (1..=4096).contains(&capacity);
            let made = Table::new(7, Measure::Hamming, d, capacity);
            assert_eq!(made.err(), (!in_range).then_some(Refusal::OutOfRange), "d {d} capacity {capacity}");
        }
    }
}

#[test]
fn all_of_a_run_is_entered_or_nothing() {
    let from = &mut Seeded(4);
    let (mut table, claims) = filled(from, Measure::CityBlock, 2, 20, 18, Style::Tied);
    let before = (table.clone().into_parts(), nodes(&claims));
    assert_eq!(table.enter(&[1, 2, 3], &[0; 6]), Err(Refusal::OverCapacity));
    assert_eq!(table.enter(&[1, 2], &[0; 3]), Err(Refusal::WrongLength));
    assert_eq!(table.enter(&[1, 2, 3], &[0; 5]), Err(Refusal::WrongLength));
    assert_eq!(table.enter(&[], &[0; 2]), Err(Refusal::WrongLength));
    assert_eq!(table.enter(&[], &[]), Ok(()));
    assert_eq!((table.clone().into_parts(), table.nodes().to_vec()), before);
    assert_eq!(table.enter(&[1, 2], &[0; 4]), Ok(()));
    assert_eq!(table.enter(&[3], &[0; 2]), Err(Refusal::OverCapacity));
    assert_eq!(table.enter(&[], &[]), Ok(()));
    assert_eq!(table.len(), 20);
}

#[test]
fn damaged_rooms_are_no_table() {
    let from = &mut Seeded(5);
    for round in 0..40 {
        let (n, d) = (1 + from.below(20), 1 + from.below(8));
        let (table, _) = filled(from, Measure::ALL[round % 3], d, n + 2, n, STYLES[round % 4]);
        let used = table.nodes().len();
        let (header, references, coordinates, nodes) = table.into_parts();
        for at in 0..nodes.len() {
            let mut damaged = nodes.clone();
            damaged[at] = from.pick(&[nodes[at] ^ 1, nodes[at].wrapping_sub(1), u64::MAX, nodes[at] ^ (1 << 40)]);
            let made = Table::from_parts(header, references.clone(), coordinates.clone(), damaged.clone());
            let expected = (at < used && damaged[at] != nodes[at]).then_some(Refusal::NotSound);
            assert_eq!(made.err(), expected, "number {at} of {used}");
        }
    }
}

#[test]
fn moved_claims_are_a_table_only_where_the_tree_is_the_same() {
    let from = &mut Seeded(6);
    for round in 0..200 {
        let (n, d) = (1 + from.below(20), 1 + from.below(3));
        let (table, mut claims) = filled(from, Measure::ALL[round % 3], d, n, n, STYLES[round % 4]);
        let (header, references, mut coordinates, own) = table.into_parts();
        let at = from.below(coordinates.len());
        coordinates[at] = drawn(from, Style::Tied, 1)[0];
        claims.all[at / claims.d].1[at % claims.d] = coordinates[at];
        let same = own.starts_with(&nodes(&claims)) && nodes(&claims).len() == header.used * 6;
        let made = Table::from_parts(header, references, coordinates, own);
        assert_eq!(made.err(), (!same).then_some(Refusal::NotSound));
    }
}

#[test]
fn damaged_headers_and_short_memory_are_no_table() {
    let from = &mut Seeded(7);
    let (table, _) = filled(from, Measure::Hamming, 2, 10, 8, Style::Tied);
    let (header, references, coordinates, nodes) = table.into_parts();
    let made = |header, r: usize, c: usize, m: usize| {
        Table::from_parts(header, references[..r].to_vec(), coordinates[..c].to_vec(), nodes[..m].to_vec()).err()
    };
    assert_eq!(made(header, 10, 20, 60), None);
    for (r, c, m) in [(9, 20, 60), (10, 19, 60), (10, 20, 59), (0, 0, 0)] {
        assert_eq!(made(header, r, c, m), Some(Refusal::OutOfRange));
    }
    for wrong in [0, 9, 11, 4097, usize::MAX / 6 + 1, usize::MAX] {
        let (mut count, mut used, mut d, mut capacity) = (header, header, header, header);
        count.count = wrong;
        used.used = wrong;
        d.d = wrong;
        capacity.capacity = wrong;
        assert_eq!(made(count, 10, 20, 60), Some(Refusal::NotSound));
        assert_eq!(made(used, 10, 20, 60), Some(Refusal::NotSound));
        assert_eq!(made(d, 10, 20, 60), Some(Refusal::OutOfRange));
        assert_eq!(made(capacity, 10, 20, 60), if wrong == 9 { None } else { Some(Refusal::OutOfRange) });
    }
    for measure in [0, 4, 255] {
        assert_eq!(made(nearby::raw::Table { measure, ..header }, 10, 20, 60), Some(Refusal::OutOfRange));
    }
}
