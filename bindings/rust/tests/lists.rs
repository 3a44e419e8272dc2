//! Lists over a link that loses, repeats, delays and reorders, and with lines that are amiss.

mod common;

use common::{drawn, enter, filled, Claims, Seeded, Style, STYLES};
use nearby::{Answer, Item, List, Mark, Measure, Order, Refusal, Table};

/// The list is the first so many, in its order, of the claims within reach that the table held at its snapshot, and complete just when
/// it has all of them.
fn check(list: &List, claims: &Claims) {
    let Some(snapshot) = list.snapshot() else {
        assert!(list.is_empty() && !list.is_complete());
        return;
    };
    let sorted = claims.listed(list.order(), list.probe(), list.reach(), snapshot as usize);
    let items: Vec<_> = list.items().collect();
    assert!(sorted.starts_with(&items));
    assert_eq!(list.is_complete(), items.len() == sorted.len());
}

/// A full link loses a line.
fn send(from: &mut Seeded, link: &mut Vec<Vec<u8>>, line: Vec<u8>) {
    if link.len() >= 40 {
        let at = from.below(link.len());
        link.swap_remove(at);
    }
    link.push(line);
}

fn take_with_room(list: &mut List, line: &[u8]) -> Result<usize, Refusal> {
    loop {
        match list.take(line) {
            Err(Refusal::ListRoomTooSmall) => list.grow(list.room() + 1),
            taken => return taken,
        }
    }
}

/// Gives the order of the list where the line was an answer of the other order.
fn arrive(from: &mut Seeded, link: &mut Vec<Vec<u8>>, table: &Table, claims: &Claims, lists: &mut [List]) -> Option<Order> {
    let at = from.below(link.len());
    let line = if from.one_in(2) { link.swap_remove(at) } else { link[at].clone() };
    if line.starts_with(b"01") || line.starts_with(b"04") {
        let answer = table.answer(&line).unwrap();
        assert!(answer.starts_with(if line.starts_with(b"01") { b"02" } else { b"05" }));
        send(from, link, answer);
        return None;
    }
    let at = from.below(lists.len());
    let list = &mut lists[at];
    let before: Vec<_> = list.items().collect();
    let taken = take_with_room(list, &line);
    let other = line.starts_with(b"05") != (list.order() == Order::Far);
    match taken {
        Ok(_) | Err(Refusal::NotToPresentAsk) | Err(Refusal::Complete) => assert!(!other),
        Err(refused) => assert_eq!((refused, other), (Refusal::NotThisKind, true)),
    }
    assert_eq!(list.len(), before.len() + taken.unwrap_or(0));
    check(list, claims);
    other.then(|| list.order())
}

/// Gives how many answers of the other order came to a near list and to a far one.
fn one_day(from: &mut Seeded, measure: Measure, style: Style) -> [usize; 2] {
    let (d, capacity, n) = (1 + from.below(8), 20 + from.below(100), from.below(20));
    let (mut table, mut claims) = filled(from, measure, d, capacity, n, style);
    let mut lists: Vec<List> = (0..3)
        .map(|at| {
            let probe = drawn(from, style, d);
            let (reach, room) = (claims.some_reach(from, &probe), from.below(4));
            List::open(Order::ALL[at % 2], table.number(), measure, &probe, reach, room).unwrap()
        })
        .collect();
    let (mut link, mut others) = (Vec::new(), [0, 0]);
    for turn in 0.. {
        if lists.iter().all(List::is_complete) {
            break;
        }
        assert!(turn < 20_000, "the lists never come to an end");
        match from.below(8) {
            0 if table.len() < capacity => {
                let run = 1 + from.below(capacity - table.len()) / 4;
                enter(from, &mut table, &mut claims, run, style);
            }
            1 if !link.is_empty() => {
                let at = from.below(link.len());
                link.swap_remove(at);
            }
            2 | 3 => {
                let (list, size) = (&lists[from.below(3)], 1 + from.below(16));
                match list.write_ask(size) {
                    Ok(ask) => send(from, &mut link, ask),
                    Err(refused) => assert_eq!((refused, list.is_complete()), (Refusal::Complete, true)),
                }
            }
            _ if !link.is_empty() => {
                if let Some(order) = arrive(from, &mut link, &table, &claims, &mut lists) {
                    others[usize::from(order.flag())] += 1;
                }
            }
            _ => {}
        }
    }
    others
}

#[test]
fn lists_over_a_lossy_link() {
    let from = &mut Seeded(41);
    let days: Vec<[usize; 2]> = (0..40).map(|day| one_day(from, Measure::ALL[day % 3], STYLES[day % 4])).collect();
    for order in Order::ALL {
        let others: usize = days.iter().map(|day| day[usize::from(order.flag())]).sum();
        assert!(others >= 300, "only {others} answers of the other order came to lists in {order:?} order");
    }
}

/// A table, a list with a page of it, and the answer to the list's present ask.
fn scene(from: &mut Seeded, order: Order) -> (Table, List, Answer) {
    let (table, _) = filled(from, Measure::CityBlock, 2, 40, 30, Style::Tied);
    let mut list = List::open(order, table.number(), Measure::CityBlock, &[0, 1], 9, 40).unwrap();
    list.take(&table.answer(&list.write_ask(4).unwrap()).unwrap()).unwrap();
    let answer = table.answer(&list.write_ask(4).unwrap()).unwrap();
    (table, list, Answer::from_line(&answer).unwrap())
}

/// A change of the present answer is refused under a number, and the list is as it was.
fn refused(list: &mut List, answer: Answer, expected: Refusal) {
    let before: (Vec<_>, _) = (list.items().collect(), list.write_ask(3));
    assert_eq!(list.take(&answer.to_line().unwrap()), Err(expected), "{answer:?}");
    assert_eq!((list.items().collect(), list.write_ask(3)), before);
}

fn other(order: Order) -> Order {
    Order::ALL[1 - usize::from(order.flag())]
}

#[test]
fn answers_to_another_ask() {
    for order in Order::ALL {
        let (_, mut list, answer) = scene(&mut Seeded(42), order);
        let Some(mark) = answer.after else { panic!("the second page comes after a mark") };
        let late = Refusal::NotToPresentAsk;
        refused(&mut list, Answer { table: answer.table ^ 1, ..answer.clone() }, late);
        refused(&mut list, Answer { measure: Measure::Maximum, ..answer.clone() }, late);
        refused(&mut list, Answer { probe: vec![0, 2], ..answer.clone() }, late);
        refused(&mut list, Answer { probe: vec![0, 1, 0], ..answer.clone() }, late);
        refused(&mut list, Answer { reach: 8, ..answer.clone() }, late);
        refused(&mut list, Answer { snapshot: 29, ..answer.clone() }, late);
        refused(&mut list, Answer { after: None, ..answer.clone() }, late);
        refused(&mut list, Answer { after: Some(Mark { distance: mark.distance + 1, ..mark }), ..answer.clone() }, late);
        refused(&mut list, Answer { after: Some(Mark { number: mark.number ^ 1, ..mark }), ..answer.clone() }, late);
        refused(&mut list, Answer { order: other(order), ..answer.clone() }, Refusal::NotThisKind);
        refused(&mut list, Answer { order: other(order), table: answer.table ^ 1, ..answer.clone() }, Refusal::NotThisKind);
        assert_eq!(list.take(&answer.to_line().unwrap()), Ok(4));
    }
}

#[test]
fn pages_that_do_not_hold() {
    for order in Order::ALL {
        let (_, mut list, answer) = scene(&mut Seeded(43), order);
        let mark = answer.after.unwrap();
        let amiss = Refusal::PageDoesNotHold;
        let with = |change: &dyn Fn(&mut Answer)| {
            let mut changed = answer.clone();
            change(&mut changed);
            changed
        };
        refused(&mut list, with(&|a| a.items.swap(0, 1)), amiss);
        refused(&mut list, with(&|a| a.items.reverse()), amiss);
        refused(&mut list, with(&|a| a.items[1] = a.items[0]), amiss);
        refused(&mut list, with(&|a| a.items[3].distance = 10), amiss);
        refused(&mut list, with(&|a| a.items[3].number = 30), amiss);
        refused(&mut list, with(&|a| a.items.clear()), amiss);
        let at_mark = nearby::Item { number: mark.number as u16, reference: 0, distance: mark.distance };
        refused(&mut list, with(&|a| a.items[0] = at_mark), amiss);
        let finished = Answer { items: Vec::new(), last: true, ..answer };
        assert_eq!(list.take(&finished.to_line().unwrap()), Ok(0));
        assert!(list.is_complete());
    }
}

#[test]
fn complete_lists_ask_and_take_no_more() {
    let from = &mut Seeded(44);
    let (table, _) = filled(from, Measure::Hamming, 2, 4, 0, Style::Tied);
    for order in Order::ALL {
        let open = |order| List::open(order, table.number(), Measure::Hamming, &[0, 0], 9, 0).unwrap();
        let mut list = open(order);
        assert_eq!(list.snapshot(), None);
        let answer = table.answer(&list.write_ask(1).unwrap()).unwrap();
        let others = table.answer(&open(other(order)).write_ask(1).unwrap()).unwrap();
        assert_eq!(list.take(&others), Err(Refusal::NotThisKind));
        assert_eq!(list.take(&answer), Ok(0));
        assert_eq!((list.is_complete(), list.snapshot(), list.len()), (true, Some(0), 0));
        assert_eq!(list.take(&answer), Err(Refusal::Complete));
        assert_eq!(list.take(&others), Err(Refusal::NotThisKind));
        assert_eq!(list.take(b"00\n"), Err(Refusal::NotThisKind));
        assert_eq!(list.take(b"00"), Err(Refusal::NotALine));
        assert_eq!(list.write_ask(1), Err(Refusal::Complete));
        assert_eq!(list.write_ask(17), Err(Refusal::Complete));
    }
}

/// Pages of 16 and room for just the claims: the page that brings the last claim completes the list.
#[test]
fn lists_of_full_pages() {
    let from = &mut Seeded(47);
    for n in [16, 32] {
        let (table, claims) = filled(from, Measure::CityBlock, 2, n, n, Style::Tied);
        for order in Order::ALL {
            let mut list = List::open(order, table.number(), Measure::CityBlock, &[0, 1], u64::MAX, n).unwrap();
            for loaded in (16..=n).step_by(16) {
                assert_eq!(list.take(&table.answer(&list.write_ask(16).unwrap()).unwrap()), Ok(16));
                assert_eq!((list.len(), list.is_complete()), (loaded, loaded == n));
            }
            check(&list, &claims);
            assert_eq!(list.write_ask(16), Err(Refusal::Complete));
        }
    }
}

/// An answer with all claims holds although it does not say that they are all. The list has them and is not complete; what it asks
/// then is answered by an empty last page, which completes it.
#[test]
fn all_claims_without_the_flag() {
    let mut table = Table::new(7, Measure::CityBlock, 1, 8).unwrap();
    table.enter(&[101, 102, 103, 104, 105], &[2, 3, 9, 6, 5]).unwrap();
    let item = |(number, distance)| Item { number, reference: 101 + u32::from(number), distance };
    for (order, sorted) in
        [(Order::Near, [(1, 1), (4, 1), (0, 2), (3, 2), (2, 5)]), (Order::Far, [(2, 5), (0, 2), (3, 2), (1, 1), (4, 1)])]
    {
        let items: Vec<Item> = sorted.map(item).to_vec();
        let (measure, probe, mark) = (Measure::CityBlock, vec![4], items[4].mark());
        let mut list = List::open(order, 7, measure, &probe, 5, 5).unwrap();
        let unflagged =
            Answer { table: 7, order, measure, probe, reach: 5, snapshot: 5, after: None, last: false, items: items.clone() };
        assert_eq!(list.take(&unflagged.to_line().unwrap()), Ok(5));
        assert!(list.items().eq(items.iter().copied()) && !list.is_complete());
        let answer = table.answer(&list.write_ask(5).unwrap()).unwrap();
        let empty = Answer { after: Some(mark), last: true, items: Vec::new(), ..unflagged };
        assert_eq!(Answer::from_line(&answer), Ok(empty));
        assert_eq!(list.take(&answer), Ok(0));
        assert!(list.items().eq(items.iter().copied()) && list.is_complete());
    }
}

#[test]
fn rooms_grow_and_never_shrink() {
    let from = &mut Seeded(45);
    let (table, claims) = filled(from, Measure::Maximum, 1, 40, 40, Style::Tied);
    for order in Order::ALL {
        let mut list = List::open(order, table.number(), Measure::Maximum, &[0], 9, 5).unwrap();
        let answer = table.answer(&list.write_ask(6).unwrap()).unwrap();
        assert_eq!(list.take(&answer), Err(Refusal::ListRoomTooSmall));
        list.grow(2);
        assert_eq!(list.room(), 5);
        list.grow(6);
        assert_eq!(list.take(&answer), Ok(6));
        list.grow(usize::MAX);
        assert_eq!(list.room(), nearby::MOST_CLAIMS);
        check(&list, &claims);
    }
}

#[test]
fn lists_opened_amiss() {
    for order in Order::ALL {
        for d in 0..=10 {
            let opened = List::open(order, 7, Measure::CityBlock, &vec![1; d], 5, usize::MAX);
            assert_eq!(opened.err(), (!(1..=8).contains(&d)).then_some(Refusal::OutOfRange));
        }
        let list = List::open(order, 7, Measure::CityBlock, &[1, 2], 5, 3).unwrap();
        assert_eq!((list.table(), list.order(), list.measure()), (7, order, Measure::CityBlock));
        assert_eq!((list.probe(), list.reach()), (&[1, 2][..], 5));
        for size in [0, 17, 256, 257, usize::MAX] {
            assert_eq!(list.write_ask(size), Err(Refusal::PageSize));
        }
    }
}

/// The list of the examples from its far end: what it writes and has after each page was worked by hand.
#[test]
fn a_list_from_the_far_end() {
    let mut table = Table::new(7, Measure::CityBlock, 1, 8).unwrap();
    table.enter(&[101, 102, 103, 104, 105], &[2, 3, 9, 6, 5]).unwrap();
    let mut list = List::open(Order::Far, 7, Measure::CityBlock, &[4], 5, 5).unwrap();
    for (entered, behind, numbers) in [
        (106, "0000000000000000000000000002", &[2, 0][..]),
        (107, "0100050000000000000002000002", &[2, 0, 3, 1]),
        (108, "0100050000000000000001000102", &[2, 0, 3, 1, 4]),
    ] {
        let ask = list.write_ask(2).unwrap();
        assert_eq!(ask, format!("04000000070101000000040000000000000005{behind}\n").into_bytes());
        list.take(&table.answer(&ask).unwrap()).unwrap();
        assert!(list.items().map(|item| item.number).eq(numbers.iter().copied()));
        // Nearer than all others, and on no page of this list.
        table.enter(&[entered], &[4]).unwrap();
    }
    assert_eq!((list.is_complete(), list.snapshot(), table.len()), (true, Some(5), 8));
}

#[test]
fn every_digit_of_an_answer_changed() {
    Order::ALL.into_iter().for_each(change_every_digit);
}

fn change_every_digit(order: Order) {
    let from = &mut Seeded(46);
    let (_, list, answer) = scene(from, order);
    let line = answer.to_line().unwrap();
    for at in 0..line.len() {
        for c in b"0123456789abcdefAg\n" {
            let mut damaged = line.clone();
            damaged[at] = *c;
            let mut after = list.clone();
            let taken = after.take(&damaged);
            // A line that reads as an answer to the present ask is taken; every other leaves the list alone.
            if taken.is_err() {
                assert!(after.items().eq(list.items()) && after.write_ask(2) == list.write_ask(2));
                continue;
            }
            let read = Answer::from_line(&damaged).unwrap();
            assert_eq!(read.order, order);
            assert_eq!((read.after, read.snapshot, read.reach), (answer.after, answer.snapshot, answer.reach));
            assert!(after.items().eq(list.items().chain(read.items.iter().copied())));
        }
    }
}
