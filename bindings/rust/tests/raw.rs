//! The bare calls: layouts, null with length 0, and the refusals that the safe types cannot reach.

use std::mem::{align_of, offset_of, size_of};
use std::ptr::{null, null_mut};

use nearby::{raw, Refusal};

/// The sizes that the x86-64 System V rules give to the structs of nearby.h.
#[test]
fn layouts() {
    assert_eq!((size_of::<raw::Table>(), offset_of!(raw::Table, d)), (40, 8));
    assert_eq!((size_of::<raw::Tabled>(), offset_of!(raw::Tabled, table)), (48, 8));
    assert_eq!((size_of::<raw::Found>(), offset_of!(raw::Found, number)), (32, 8));
    assert_eq!((size_of::<raw::Start>(), offset_of!(raw::Start, snapshot)), (32, 8));
    assert_eq!((size_of::<raw::Filled>(), offset_of!(raw::Filled, count)), (16, 8));
    assert_eq!((size_of::<raw::Written>(), size_of::<raw::Answered>()), (16, 32));
    assert_eq!((size_of::<raw::List>(), offset_of!(raw::List, probe), offset_of!(raw::List, reach)), (72, 16, 48));
    assert_eq!((offset_of!(raw::List, order), offset_of!(raw::List, measure)), (4, 5));
    assert_eq!((offset_of!(raw::List, started), offset_of!(raw::List, complete), offset_of!(raw::List, d)), (6, 7, 8));
    assert_eq!((size_of::<raw::Listed>(), size_of::<raw::Scope>(), size_of::<raw::Ask>()), (80, 32, 80));
    assert_eq!((offset_of!(raw::Ask, order), offset_of!(raw::Ask, measure), offset_of!(raw::Ask, d)), (4, 5, 6));
    assert_eq!((offset_of!(raw::Ask, probe), offset_of!(raw::Ask, scope), offset_of!(raw::Ask, size)), (8, 40, 72));
    assert_eq!((size_of::<raw::AnswerFields>(), offset_of!(raw::AnswerFields, items)), (464, 80));
    assert_eq!((offset_of!(raw::AnswerFields, order), offset_of!(raw::AnswerFields, measure)), (4, 5));
    assert_eq!((offset_of!(raw::AnswerFields, d), offset_of!(raw::AnswerFields, probe)), (6, 8));
    assert_eq!((size_of::<raw::Claim>(), size_of::<raw::ClaimRead>(), align_of::<raw::ClaimRead>()), (44, 48, 4));
    assert_eq!((size_of::<raw::AskRead>(), size_of::<raw::AnswerRead>()), (88, 472));
}

#[test]
fn null_with_length_0() {
    let table = raw::Table { number: 1, measure: 1, d: 1, capacity: 1, count: 0, used: 0 };
    let (r, c, m) = (null(), null(), null());
    let zeros = raw::Start::default();
    // Safety: every pointer is null with length 0.
    unsafe {
        assert_eq!(raw::nearby_make_table(1, 1, 1, 1, r, 0, c, 0, m, 0), raw::Tabled { refusal: 1, ..Default::default() });
        assert_eq!(raw::nearby_test_table(table, r, 0, c, 0, m, 0), 1);
        let entered = raw::nearby_enter(table, null_mut(), 0, null_mut(), 0, null_mut(), 0, null(), 0, null(), 0);
        assert_eq!(entered, raw::Tabled { refusal: 1, ..Default::default() });
        assert_eq!(raw::nearby_nearest(table, r, 0, c, 0, m, 0, null(), 0, 5).refusal, 1);
        assert_eq!(raw::nearby_farthest(table, r, 0, c, 0, m, 0, null(), 0).refusal, 1);
        assert_eq!(raw::nearby_page(table, r, 0, c, 0, m, 0, 1, null(), 0, 5, zeros, 1, null_mut(), 0).refusal, 1);
        assert_eq!(raw::nearby_answer(table, r, 0, c, 0, m, 0, null(), 0, null_mut(), 0).refusal, 12);
        assert_eq!(raw::nearby_many_nearest(table, r, 0, c, 0, m, 0, null(), 0, null(), 0, null_mut(), 0), 1);
        assert_eq!(raw::nearby_many_farthest(table, r, 0, c, 0, m, 0, null(), 0, 0, null_mut(), 0), 1);
        let paged =
            raw::nearby_many_pages(table, r, 0, c, 0, m, 0, null(), 0, null(), 0, null(), 0, 1, null_mut(), 0, null_mut(), 0);
        assert_eq!(paged, 1);
        assert_eq!(raw::nearby_many_answers(table, r, 0, c, 0, m, 0, null(), 0, null_mut(), 0, null_mut(), 0).refusal, 12);
        assert_eq!(raw::nearby_open_list(1, 1, 1, 1, null(), 0, 5), raw::Listed { refusal: 5, ..Default::default() });
        assert_eq!(raw::nearby_write_ask(raw::List::default(), null(), 0, 1, null_mut(), 0).refusal, 2);
        assert_eq!(raw::nearby_take(raw::List::default(), null_mut(), 0, null(), 0).refusal, 2);
        assert_eq!(raw::nearby_read_ask_line(null(), 0).refusal, 9);
        assert_eq!(raw::nearby_read_answer_line(null(), 0).refusal, 9);
        assert_eq!(raw::nearby_read_claim_line(null(), 0).refusal, 9);
        let scope = raw::Scope::default();
        assert_eq!(raw::nearby_write_ask_line(1, 1, 1, 1, null(), 0, scope, 1, null_mut(), 0).refusal, 10);
        assert_eq!(raw::nearby_write_answer_line(1, 1, 1, 1, null(), 0, scope, 0, 0, null(), 0, null_mut(), 0).refusal, 10);
        assert_eq!(raw::nearby_write_claim_line(1, 1, 1, 1, null(), 0, null_mut(), 0).refusal, 10);
    }
}

/// Flags of an order, each with what it comes back as: any but 0 is far.
const ORDERS: [(u8, u8); 5] = [(0, 0), (1, 1), (2, 1), (128, 1), (255, 1)];

#[test]
fn orders_of_lists_are_flags() {
    let (probe, mut out) = ([3], [0; 123]);
    for (flag, order) in ORDERS {
        // Safety: every pointer is that of an array, with its length, or null with length 0.
        unsafe {
            let opened = raw::nearby_open_list(flag, 7, 1, 1, probe.as_ptr(), 1, 9);
            assert_eq!((opened.refusal, opened.list.order), (0, order));
            let list = raw::List { order: flag, ..opened.list };
            let asked = raw::nearby_write_ask(list, null(), 0, 4, out.as_mut_ptr(), out.len());
            assert_eq!((asked.refusal, &out[..2]), (0, if order == 0 { b"01" } else { b"04" }.as_slice()));
            let taken = raw::nearby_take(list, null_mut(), 0, out.as_ptr(), asked.length);
            assert_eq!(taken, raw::Listed { refusal: 10, list: opened.list });
        }
    }
}

#[test]
fn orders_of_lines_are_flags() {
    let (probe, mut out, scope) = ([3], [0; 573], raw::Scope::default());
    for (flag, order) in ORDERS {
        let room = out.as_mut_ptr();
        // Safety: every pointer is that of an array, with its length, or null with length 0.
        unsafe {
            let asked = raw::nearby_write_ask_line(flag, 7, 1, 1, probe.as_ptr(), 1, scope, 4, room, 573);
            let read = raw::nearby_read_ask_line(room, asked.length);
            assert_eq!((asked.refusal, read.refusal, read.ask.order), (0, 0, order));
            let answered = raw::nearby_write_answer_line(flag, 7, 1, 1, probe.as_ptr(), 1, scope, 1, 0, null(), 0, room, 573);
            let read = raw::nearby_read_answer_line(room, answered.length);
            assert_eq!((answered.refusal, read.refusal, read.answer.order), (0, 0, order));
        }
    }
}

#[test]
fn unsound_lists() {
    let probe = [3];
    // Safety: every pointer is that of an array, with its length.
    unsafe {
        let list = raw::nearby_open_list(0, 7, 1, 1, probe.as_ptr(), 1, 9).list;
        let mut room = [0; 6];
        for amiss in [
            raw::List { measure: 4, ..list },
            raw::List { d: 9, ..list },
            raw::List { d: usize::MAX, ..list },
            raw::List { complete: 2, ..list },
            raw::List { started: 255, ..list },
            raw::List { snapshot: 1, ..list },
            raw::List { count: 1, ..list },
            raw::List { started: 1, snapshot: 9, count: 3, ..list },
            raw::List { started: 1, snapshot: 4097, complete: 1, ..list },
            raw::List { probe: [3, 0, 0, 0, 0, 0, 0, 1], ..list },
            raw::List { order: 1, complete: 2, ..list },
            raw::List { order: 1, started: 1, snapshot: 9, count: 2, ..list },
        ] {
            let mut out = [0xa5; 200];
            let wrote = raw::nearby_write_ask(amiss, room.as_ptr(), 6, 1, out.as_mut_ptr(), 200);
            assert_eq!((wrote.refusal, wrote.length, out), (2, 0, [0xa5; 200]), "{amiss:?}");
            assert_eq!(raw::nearby_take(amiss, room.as_mut_ptr(), 6, out.as_ptr(), 200).refusal, 2);
            assert_eq!(room, [0; 6]);
        }
    }
}

/// The rows of nearby.h's refusals: numbers with their meanings.
fn rows_of_the_header() -> Vec<(u8, String)> {
    let header = std::fs::read_to_string(concat!(env!("CARGO_MANIFEST_DIR"), "/../c/nearby.h")).unwrap();
    let row = |line: &str| {
        let (number, meaning) = line.trim().strip_prefix("row(")?.split_once(", \"")?;
        Some((number.parse().unwrap(), meaning.rsplit_once("\")")?.0.to_string()))
    };
    header.lines().filter_map(row).collect()
}

#[test]
fn refusals_are_the_headers() {
    let rows = rows_of_the_header();
    assert!(!rows.is_empty());
    assert_eq!(Refusal::ALL.iter().map(|refusal| (refusal.number(), refusal.to_string())).collect::<Vec<_>>(), rows);
    for number in 0..=255 {
        let known = rows.iter().any(|row| row.0 == number);
        assert_eq!(Refusal::from_number(number).map(Refusal::number), known.then_some(number));
    }
}

/// [8.4] The number has no meaning here or in the header, and its neighbours keep theirs.
#[test]
fn four_is_retired() {
    assert_eq!(Refusal::from_number(4), None);
    assert!(rows_of_the_header().iter().all(|row| row.0 != 4));
    assert_eq!((Refusal::OverCapacity.number(), Refusal::WrongLength.number()), (3, 5));
}
