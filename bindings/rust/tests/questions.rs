//! Nearest, farthest and pages, single and many, beside a plain sort.

mod common;

use std::sync::Arc;
use std::thread;

use common::{drawn, filled, Claims, Seeded, Style, STYLES};
use nearby::{Ask, Item, Mark, Measure, Order, Page, Place, Refusal, Table};

const EVERYWHERE: u64 = u64::MAX;

/// A table of every measure, d and style, with a few counts.
fn on_tables(seed: u64, counts: &[usize], mut ask: impl FnMut(&mut Seeded, &Table, &Claims, Style)) {
    let mut from = Seeded(seed);
    for measure in Measure::ALL {
        for d in 1..=8 {
            for style in STYLES {
                for &n in counts {
                    let (table, claims) = filled(&mut from, measure, d, n + 1, n, style);
                    ask(&mut from, &table, &claims, style);
                }
            }
        }
    }
}

fn page_as_sorted(
    table: &Table,
    claims: &Claims,
    order: Order,
    probe: &[i32],
    reach: u64,
    place: Place,
    size: usize,
) -> Result<Page, Refusal> {
    let page = table.page(order, probe, reach, place, size);
    let told = page.as_ref().map(|p| (p.items.clone(), p.last)).map_err(|r| *r);
    assert_eq!(told, claims.page(order, probe, reach, place, size), "{order:?} {place:?} size {size} reach {reach}");
    page
}

#[test]
fn nearest_and_farthest_are_those_of_a_sort() {
    on_tables(11, &[0, 1, 2, 7, 60], |from, table, claims, style| {
        for _ in 0..6 {
            let probe = drawn(from, style, claims.d);
            let reach = claims.some_reach(from, &probe);
            let near = claims.listed(Order::Near, &probe, reach, claims.all.len());
            assert_eq!(table.nearest(&probe, reach), Ok(near.first().copied()));
            assert_eq!(table.farthest(&probe), Ok(claims.farthest(&probe)));
        }
    });
}

#[test]
fn pages_to_the_end_are_the_sorted_claims() {
    on_tables(12, &[0, 1, 16, 17, 50], |from, table, claims, style| {
        let probe = drawn(from, style, claims.d);
        let reach = claims.some_reach(from, &probe);
        for order in Order::ALL {
            let (size, mut place, mut seen, mut pages) = (1 + from.below(16), Some(Place::Start), Vec::new(), 0);
            while let Some(at) = place {
                let page = page_as_sorted(table, claims, order, &probe, reach, at, size).unwrap();
                seen.extend_from_slice(&page.items);
                place = page.next();
                pages += 1;
            }
            assert_eq!(seen, claims.listed(order, &probe, reach, claims.all.len()));
            assert_eq!(pages, seen.len().div_ceil(size).max(1));
        }
    });
}

#[test]
fn pages_after_any_mark_in_any_snapshot() {
    on_tables(13, &[0, 1, 5, 30], |from, table, claims, style| {
        for _ in 0..12 {
            let probe = drawn(from, style, claims.d);
            let reach = claims.some_reach(from, &probe);
            let (order, place) = (from.pick(&Order::ALL), claims.some_place(from, &probe));
            let _ = page_as_sorted(table, claims, order, &probe, reach, place, 1 + from.below(16));
        }
    });
}

#[test]
fn marks_far_out_are_refused() {
    let from = &mut Seeded(14);
    let (table, claims) = filled(from, Measure::CityBlock, 1, 9, 9, Style::Tied);
    for order in Order::ALL {
        let first = claims.listed(order, &[0], EVERYWHERE, 9)[0].mark();
        for snapshot in [10, 4097, u64::MAX] {
            let place = Place::After { snapshot, mark: first };
            assert_eq!(table.page(order, &[0], EVERYWHERE, place, 3), Err(Refusal::SnapshotOverCount));
        }
        for number in [9, 4096, 1 << 32, u64::MAX] {
            let place = Place::After { snapshot: 9, mark: Mark { distance: first.distance, number } };
            assert_eq!(table.page(order, &[0], EVERYWHERE, place, 3), Err(Refusal::MarkNotHeld));
        }
    }
}

/// The five claims of the examples in far order, worked by hand: a claim that is entered between two pages is on none of them.
#[test]
fn pages_from_the_far_end() {
    let mut table = Table::new(7, Measure::CityBlock, 1, 8).unwrap();
    table.enter(&[101, 102, 103, 104, 105], &[2, 3, 9, 6, 5]).unwrap();
    let page = |table: &Table, reach, place| {
        let page = table.page(Order::Far, &[4], reach, place, 2).unwrap();
        (page.items.iter().map(|item| (item.number, item.distance)).collect::<Vec<_>>(), page.last)
    };
    let after = |distance, number| Place::After { snapshot: 5, mark: Mark { distance, number } };
    assert_eq!(page(&table, 5, Place::Start), (vec![(2, 5), (0, 2)], false));
    assert_eq!(page(&table, 2, Place::Start), (vec![(0, 2), (3, 2)], false));
    table.enter(&[106], &[4]).unwrap();
    assert_eq!(page(&table, 5, after(2, 0)), (vec![(3, 2), (1, 1)], false));
    assert_eq!(page(&table, 5, after(1, 1)), (vec![(4, 1)], true));
    assert_eq!(page(&table, 2, after(2, 3)), (vec![(1, 1), (4, 1)], true));
    assert_eq!(page(&table, 2, after(1, 4)), (vec![], true));
}

/// A page of just all that are left has no next one, and the one behind it is empty. A full page with a claim behind it has one.
#[test]
fn full_pages_and_what_is_next() {
    let mut table = Table::new(7, Measure::CityBlock, 1, 8).unwrap();
    table.enter(&[101, 102, 103, 104, 105], &[2, 3, 9, 6, 5]).unwrap();
    for (order, sorted) in [(Order::Near, [1, 4, 0, 3, 2]), (Order::Far, [2, 0, 3, 1, 4])] {
        let page = |place, size| table.page(order, &[4], 5, place, size).unwrap();
        let numbers = |page: &Page| page.items.iter().map(|item| item.number).collect::<Vec<_>>();
        let whole = page(Place::Start, 5);
        assert_eq!((numbers(&whole), whole.last, whole.next()), (sorted.to_vec(), true, None));
        let behind = page(Place::After { snapshot: 5, mark: whole.items[4].mark() }, 5);
        assert_eq!((behind.items.len(), behind.last, behind.next()), (0, true, None));
        let four = page(Place::Start, 4);
        let next = Place::After { snapshot: 5, mark: whole.items[3].mark() };
        assert_eq!((numbers(&four), four.last, four.next()), (sorted[..4].to_vec(), false, Some(next)));
        let fifth = page(next, 1);
        assert_eq!((numbers(&fifth), fifth.last, fifth.next()), (sorted[4..].to_vec(), true, None));
    }
}

#[test]
fn large_tables() {
    let from = &mut Seeded(15);
    for (round, style) in STYLES.into_iter().enumerate() {
        let (table, claims) = filled(from, Measure::ALL[round % 3], 2, 4096, 4096, style);
        let probe = drawn(from, style, 2);
        let both = Order::ALL.map(|order| (order, claims.listed(order, &probe, EVERYWHERE, 4096)));
        assert_eq!(table.nearest(&probe, EVERYWHERE), Ok(both[0].1.first().copied()));
        assert_eq!(table.farthest(&probe), Ok(both[1].1.first().copied()));
        for (order, sorted) in both {
            // Behind the last three there are 17 claims, 16 and 5.
            for (at, last) in [(2000, false), (4078, false), (4079, true), (4090, true)] {
                let place = Place::After { snapshot: 4096, mark: sorted[at].mark() };
                assert_eq!(page_as_sorted(&table, &claims, order, &probe, EVERYWHERE, place, 16).unwrap().last, last);
            }
        }
    }
}

#[test]
fn probes_and_sizes_amiss() {
    let from = &mut Seeded(16);
    for d in 1..=8 {
        let (table, _) = filled(from, Measure::Maximum, d, 9, 9, Style::Tied);
        for length in 0..=10 {
            let probe = vec![0; length];
            let amiss = (length != d).then_some(Refusal::WrongLength);
            assert_eq!(table.nearest(&probe, 5).err(), amiss);
            assert_eq!(table.farthest(&probe).err(), amiss);
            for size in [0, 1, 16, 17, 256, 257, usize::MAX] {
                let sized = (!(1..=16).contains(&size)).then_some(Refusal::PageSize);
                for order in Order::ALL {
                    assert_eq!(table.page(order, &probe, 5, Place::Start, size).err(), amiss.or(sized));
                    assert_eq!(table.pages(&probe, &[5], &[(order, Place::Start)], size).err(), amiss.or(sized));
                }
            }
        }
    }
}

#[test]
fn many_are_what_single_ones_are() {
    on_tables(17, &[0, 1, 6, 40], |from, table, claims, style| {
        let n = from.below(6);
        let probes = drawn(from, style, n * claims.d);
        let each = || probes.chunks_exact(claims.d);
        let reaches: Vec<u64> = each().map(|probe| claims.some_reach(from, probe)).collect();
        let starts: Vec<(Order, Place)> = each().map(|probe| (from.pick(&Order::ALL), claims.some_place(from, probe))).collect();
        let size = 1 + from.below(16);

        let near: Vec<Option<Item>> = each().zip(&reaches).map(|(probe, &reach)| table.nearest(probe, reach).unwrap()).collect();
        assert_eq!(table.nearest_many(&probes, &reaches).unwrap(), near);
        let far: Vec<Option<Item>> = each().map(|probe| table.farthest(probe).unwrap()).collect();
        assert_eq!(table.farthest_many(&probes).unwrap(), far);
        let single = each().zip(&reaches).zip(&starts);
        let pages: Vec<_> = single
            .map(|((probe, &reach), &(order, place))| page_as_sorted(table, claims, order, probe, reach, place, size))
            .collect();
        assert_eq!(table.pages(&probes, &reaches, &starts, size).unwrap(), pages);
    });
}

#[test]
fn many_with_lengths_amiss() {
    let from = &mut Seeded(18);
    let (table, _) = filled(from, Measure::Hamming, 3, 9, 9, Style::Tied);
    let start = [Order::Near, Order::Far, Order::Near].map(|order| (order, Place::Start));
    for length in 0..12 {
        let probes = vec![0; length];
        let amiss = (length != 6).then_some(Refusal::WrongLength);
        assert_eq!(table.nearest_many(&probes, &[1, 2]).err(), amiss);
        assert_eq!(table.pages(&probes, &[1, 2], &start[..2], 4).err(), amiss);
        assert_eq!(table.farthest_many(&probes).err(), (length % 3 != 0).then_some(Refusal::WrongLength));
    }
    assert_eq!(table.pages(&[0; 6], &[1, 2], &start, 4), Err(Refusal::WrongLength));
    assert_eq!(table.pages(&[0; 6], &[1, 2], &start[..1], 4), Err(Refusal::WrongLength));
}

/// Ask lines, good ones and damaged ones, one after another.
fn some_asks(from: &mut Seeded, claims: &Claims, lines: usize) -> Vec<u8> {
    let mut asks = Vec::new();
    for _ in 0..lines {
        let probe = drawn(from, Style::Tied, claims.d);
        let ask = Ask {
            table: claims.number ^ u32::from(from.one_in(9)),
            order: from.pick(&Order::ALL),
            measure: claims.measure,
            reach: claims.some_reach(from, &probe),
            place: claims.some_place(from, &probe),
            size: 1 + from.below(16),
            probe,
        };
        let mut line = ask.to_line().unwrap();
        if from.one_in(6) {
            let at = from.below(line.len());
            line[at] = from.pick(b"\ng0");
        }
        asks.extend(line);
    }
    asks
}

#[test]
fn answers_are_what_single_answers_are() {
    let from = &mut Seeded(19);
    for round in 0..60 {
        let (n, d) = (from.below(40), 1 + from.below(8));
        let (table, claims) = filled(from, Measure::ALL[round % 3], d, n + 1, n, Style::Tied);
        let lines = from.below(30);
        let mut asks = some_asks(from, &claims, lines);
        asks.truncate(asks.len() - from.below(3).min(asks.len()));
        let single: Vec<_> = asks.split_inclusive(|&c| c == b'\n').map(|line| table.answer(line)).collect();
        assert_eq!(table.answers(&asks).unwrap(), single);
    }
}

#[test]
fn more_answers_than_go_into_one_call() {
    let from = &mut Seeded(20);
    let (table, claims) = filled(from, Measure::CityBlock, 2, 64, 64, Style::Tied);
    let asks = some_asks(from, &claims, 10_000);
    let answers = table.answers(&asks).unwrap();
    assert_eq!(answers.len(), asks.split_inclusive(|&c| c == b'\n').count());
    for (line, answer) in asks.split_inclusive(|&c| c == b'\n').zip(&answers).step_by(97) {
        assert_eq!(&table.answer(line), answer);
    }
}

#[test]
fn answer_into_a_room() {
    let from = &mut Seeded(21);
    let (table, claims) = filled(from, Measure::CityBlock, 2, 9, 9, Style::Tied);
    let (number, measure) = (claims.number, claims.measure);
    for order in Order::ALL {
        let ask = Ask { table: number, order, measure, probe: vec![0, 0], reach: 9, place: Place::Start, size: 4 };
        let line = ask.to_line().unwrap();
        let mut out = [0xa5; 600];
        assert_eq!(table.answer_into(&line, &mut out[..572]), Err(Refusal::OutputTooSmall));
        assert_eq!(table.answer_into(b"", &mut out), Err(Refusal::NotALine));
        assert_eq!(out, [0xa5; 600]);
        let length = table.answer_into(&line, &mut out).unwrap();
        assert_eq!(out[..length], table.answer(&line).unwrap());
        assert!(out[length..].iter().all(|&c| c == 0xa5));
    }
}

#[test]
fn threads_share_a_table() {
    let from = &mut Seeded(22);
    // The deepest tree that there is, on threads with the stack that std gives them.
    let (table, claims) = filled(from, Measure::CityBlock, 1, 4096, 4096, Style::InALine);
    let shared = Arc::new((table, claims));
    let threads: Vec<_> = (0..4)
        .map(|third: i32| {
            let probe = third * 1365;
            let shared = Arc::clone(&shared);
            thread::spawn(move || {
                let (table, claims) = &*shared;
                for order in Order::ALL {
                    page_as_sorted(table, claims, order, &[probe], EVERYWHERE, Place::Start, 16).unwrap();
                }
                assert_eq!(table.farthest(&[probe]), Ok(claims.farthest(&[probe])));
            })
        })
        .collect();
    for thread in threads {
        thread.join().unwrap();
    }
}
