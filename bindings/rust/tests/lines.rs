//! Asks and answers of both orders, and claims, beside an independent writer and reader.

mod common;

use common::{drawn, Seeded, Style};
use nearby::{Answer, Ask, ClaimLine, Item, Mark, Measure, Order, Place, Refusal};

// ---- an independent writer

/// The kind of an ask or an answer: the one in near order, or the one in far order.
fn kind(order: Order, near: u8, far: u8) -> u8 {
    match order {
        Order::Near => near,
        Order::Far => far,
    }
}

fn head(kind: u8, table: u32, measure: Measure, coordinates: &[i32]) -> String {
    format!("{kind:02x}{table:08x}{:02x}{:02x}", measure.number(), coordinates.len())
}

fn coordinates(all: &[i32]) -> String {
    all.iter().map(|c| format!("{c:08x}")).collect()
}

fn scope(reach: u64, snapshot: u64, mark: Option<Mark>) -> String {
    let at = mark.unwrap_or(Mark { distance: 0, number: 0 });
    format!("{reach:016x}{:02x}{snapshot:04x}{:016x}{:04x}", u8::from(mark.is_some()), at.distance, at.number)
}

fn ask_text(ask: &Ask) -> String {
    let behind = match ask.place {
        Place::Start => scope(ask.reach, 0, None),
        Place::After { snapshot, mark } => scope(ask.reach, snapshot, Some(mark)),
    };
    let front = head(kind(ask.order, 1, 4), ask.table, ask.measure, &ask.probe) + &coordinates(&ask.probe);
    format!("{front}{behind}{:02x}\n", ask.size)
}

fn answer_text(answer: &Answer) -> String {
    let items: String =
        answer.items.iter().map(|item| format!("{:04x}{:08x}{:016x}", item.number, item.reference, item.distance)).collect();
    let front = head(kind(answer.order, 2, 5), answer.table, answer.measure, &answer.probe) + &coordinates(&answer.probe);
    let behind = scope(answer.reach, answer.snapshot, answer.after);
    format!("{front}{behind}{:02x}{:02x}{items}\n", u8::from(answer.last), answer.items.len())
}

fn claim_text(claim: &ClaimLine) -> String {
    let front = head(3, claim.table, claim.measure, &claim.coordinates);
    format!("{front}{:08x}{}\n", claim.reference, coordinates(&claim.coordinates))
}

// ---- an independent reader: the fields one after another, `None` where they run out or out of range

struct Fields(std::vec::IntoIter<u8>);

fn frame(line: &[u8]) -> Result<Fields, Refusal> {
    let digits = line.strip_suffix(b"\n").ok_or(Refusal::NotALine)?;
    if digits.is_empty() || digits.len() % 2 == 1 || line.len() > 573 {
        return Err(Refusal::NotALine);
    }
    if !digits.iter().all(|c| matches!(c, b'0'..=b'9' | b'a'..=b'f')) {
        return Err(Refusal::NotALine);
    }
    let text = std::str::from_utf8(digits).unwrap();
    let bytes: Vec<u8> = (0..text.len()).step_by(2).map(|i| u8::from_str_radix(&text[i..i + 2], 16).unwrap()).collect();
    Ok(Fields(bytes.into_iter()))
}

impl Fields {
    fn next(&mut self, bytes: usize) -> Option<u64> {
        (0..bytes).try_fold(0, |value, _| Some(value << 8 | u64::from(self.0.next()?)))
    }

    fn within(&mut self, bytes: usize, range: std::ops::RangeInclusive<u64>) -> Option<u64> {
        self.next(bytes).filter(|value| range.contains(value))
    }

    fn coordinates(&mut self, d: u64) -> Option<Vec<i32>> {
        (0..d).map(|_| self.next(4).map(|value| value as u32 as i32)).collect()
    }

    /// The order of an ask or an answer, by its kind.
    fn order(&mut self, near: u64, far: u64) -> Option<Order> {
        match self.next(1)? {
            kind if kind == near => Some(Order::Near),
            kind if kind == far => Some(Order::Far),
            _ => None,
        }
    }

    /// Table, measure and d, behind the kind.
    fn head(&mut self) -> Option<(u32, Measure, u64)> {
        let table = self.next(4)? as u32;
        let measure = Measure::ALL[self.within(1, 1..=3)? as usize - 1];
        Some((table, measure, self.within(1, 1..=8)?))
    }

    /// Reach, snapshot and mark.
    fn scope(&mut self) -> Option<(u64, u64, Option<Mark>)> {
        let (reach, from, snapshot) = (self.next(8)?, self.within(1, 0..=1)?, self.within(2, 0..=4096)?);
        let mark = Mark { distance: self.next(8)?, number: self.within(2, 0..=4095)? };
        match from {
            0 => (mark == Mark { distance: 0, number: 0 }).then_some((reach, snapshot, None)),
            _ => Some((reach, snapshot, Some(mark))),
        }
    }

    fn end(mut self) -> Option<()> {
        self.0.next().is_none().then_some(())
    }
}

fn ask_fields(mut fields: Fields) -> Option<Ask> {
    let order = fields.order(1, 4)?;
    let (table, measure, d) = fields.head()?;
    let probe = fields.coordinates(d)?;
    let (reach, snapshot, mark) = fields.scope()?;
    let size = fields.within(1, 1..=16)? as usize;
    fields.end()?;
    let place = match mark {
        None if snapshot != 0 => return None,
        None => Place::Start,
        Some(mark) => Place::After { snapshot, mark },
    };
    Some(Ask { table, order, measure, probe, reach, place, size })
}

fn answer_fields(mut fields: Fields) -> Option<Answer> {
    let order = fields.order(2, 5)?;
    let (table, measure, d) = fields.head()?;
    let probe = fields.coordinates(d)?;
    let (reach, snapshot, after) = fields.scope()?;
    let last = fields.within(1, 0..=1)? == 1;
    let count = fields.within(1, 0..=16)?;
    let mut item = || {
        let (number, reference) = (fields.within(2, 0..=4095)? as u16, fields.next(4)? as u32);
        Some(Item { number, reference, distance: fields.next(8)? })
    };
    let items = (0..count).map(|_| item()).collect::<Option<Vec<Item>>>()?;
    fields.end()?;
    Some(Answer { table, order, measure, probe, reach, snapshot, after, last, items })
}

fn claim_fields(mut fields: Fields) -> Option<ClaimLine> {
    fields.within(1, 3..=3)?;
    let (table, measure, d) = fields.head()?;
    let reference = fields.next(4)? as u32;
    let coordinates = fields.coordinates(d)?;
    fields.end()?;
    Some(ClaimLine { table, measure, reference, coordinates })
}

/// What a reader of one kind makes of a line.
fn read<T>(line: &[u8], fields: fn(Fields) -> Option<T>) -> Result<T, Refusal> {
    fields(frame(line)?).ok_or(Refusal::NotThisKind)
}

fn read_all(line: &[u8]) {
    let text = String::from_utf8_lossy(line);
    assert_eq!(Ask::from_line(line), read(line, ask_fields), "{text}");
    assert_eq!(Answer::from_line(line), read(line, answer_fields), "{text}");
    assert_eq!(ClaimLine::from_line(line), read(line, claim_fields), "{text}");
}

// ---- values

fn some_coordinates(from: &mut Seeded) -> Vec<i32> {
    let (style, d) = (from.pick(&[Style::Anywhere, Style::AtTheEnds, Style::Tied]), 1 + from.below(8));
    drawn(from, style, d)
}

fn some_mark(from: &mut Seeded) -> Mark {
    Mark { distance: from.next(), number: from.below(4096) as u64 }
}

fn some_ask(from: &mut Seeded) -> Ask {
    let place = match from.one_in(2) {
        true => Place::Start,
        false => Place::After { snapshot: from.below(4097) as u64, mark: some_mark(from) },
    };
    Ask {
        table: from.next() as u32,
        order: from.pick(&Order::ALL),
        measure: from.pick(&Measure::ALL),
        probe: some_coordinates(from),
        reach: from.next() >> from.below(64),
        place,
        size: 1 + from.below(16),
    }
}

fn some_answer(from: &mut Seeded) -> Answer {
    let count = from.below(17);
    Answer {
        table: from.next() as u32,
        order: from.pick(&Order::ALL),
        measure: from.pick(&Measure::ALL),
        probe: some_coordinates(from),
        reach: from.next(),
        snapshot: from.below(4097) as u64,
        after: if from.one_in(2) { Some(some_mark(from)) } else { None },
        last: from.one_in(2),
        items: (0..count)
            .map(|_| Item { number: from.below(4096) as u16, reference: from.next() as u32, distance: from.next() })
            .collect(),
    }
}

fn some_claim(from: &mut Seeded) -> ClaimLine {
    ClaimLine {
        table: from.next() as u32,
        measure: from.pick(&Measure::ALL),
        reference: from.next() as u32,
        coordinates: some_coordinates(from),
    }
}

fn some_lines(from: &mut Seeded) -> [Vec<u8>; 3] {
    [some_ask(from).to_line().unwrap(), some_answer(from).to_line().unwrap(), some_claim(from).to_line().unwrap()]
}

// ---- tests

#[test]
fn lines_are_written_as_told_and_read_back() {
    let from = &mut Seeded(31);
    for _ in 0..3000 {
        let (ask, answer, claim) = (some_ask(from), some_answer(from), some_claim(from));
        assert_eq!(ask.to_line().unwrap(), ask_text(&ask).into_bytes());
        assert_eq!(answer.to_line().unwrap(), answer_text(&answer).into_bytes());
        assert_eq!(claim.to_line().unwrap(), claim_text(&claim).into_bytes());
        assert_eq!(Ask::from_line(&ask.to_line().unwrap()), Ok(ask));
        assert_eq!(Answer::from_line(&answer.to_line().unwrap()), Ok(answer));
        assert_eq!(ClaimLine::from_line(&claim.to_line().unwrap()), Ok(claim));
    }
}

#[test]
fn the_longest_lines() {
    let (table, measure, probe, reach) = (u32::MAX, Measure::Hamming, vec![-1; 8], u64::MAX);
    let mark = Mark { distance: u64::MAX, number: 4095 };
    let place = Place::After { snapshot: 4096, mark };
    let items = vec![Item { number: 4095, reference: u32::MAX, distance: u64::MAX }; 16];
    for order in Order::ALL {
        let ask = Ask { table, order, measure, probe: probe.clone(), reach, place, size: 16 };
        assert_eq!(ask.to_line().unwrap().len(), nearby::ASK_LINE);
        let (after, items) = (Some(mark), items.clone());
        let answer = Answer { table, order, measure, probe: probe.clone(), reach, snapshot: 4096, after, last: true, items };
        assert_eq!(answer.to_line().unwrap().len(), nearby::ANSWER_LINE);
    }
    let claim = ClaimLine { table, measure, reference: u32::MAX, coordinates: probe };
    assert_eq!(claim.to_line().unwrap().len(), nearby::CLAIM_LINE);
}

/// The number of a kind in front of the fields of each kind: only its own reader takes it, and tells the order by it.
#[test]
fn every_kind_before_every_reader() {
    let from = &mut Seeded(36);
    let lines: [Vec<u8>; 3] = some_lines(from);
    for kind in 0..=255u8 {
        let numbered = lines.clone().map(|line| [format!("{kind:02x}").as_bytes(), &line[2..]].concat());
        numbered.iter().for_each(|line| read_all(line));
        let [ask, answer, claim] = numbered;
        let order = |near, far| Order::ALL.into_iter().zip([near, far]).find(|(_, own)| *own == kind).map(|(order, _)| order);
        assert_eq!(Ask::from_line(&ask).ok().map(|ask| ask.order), order(1, 4));
        assert_eq!(Answer::from_line(&answer).ok().map(|answer| answer.order), order(2, 5));
        assert_eq!(ClaimLine::from_line(&claim).is_ok(), kind == 3);
    }
}

#[test]
fn values_out_of_range_have_no_line() {
    let from = &mut Seeded(32);
    let refused = Err(Refusal::NotThisKind);
    for _ in 0..200 {
        let (ask, answer, claim) = (some_ask(from), some_answer(from), some_claim(from));
        for length in [0, 9, 255, 256, 257, 300] {
            let long = vec![0; length];
            assert_eq!(Ask { probe: long.clone(), ..ask.clone() }.to_line(), refused);
            assert_eq!(Answer { probe: long.clone(), ..answer.clone() }.to_line(), refused);
            assert_eq!(ClaimLine { coordinates: long, ..claim.clone() }.to_line(), refused);
        }
        for size in [0, 17, 255, 256, 257, 272, usize::MAX] {
            assert_eq!(Ask { size, ..ask.clone() }.to_line(), refused);
        }
        for snapshot in [4097, 65536, 65537, 69632, u64::MAX] {
            let place = Place::After { snapshot, mark: some_mark(from) };
            assert_eq!(Ask { place, ..ask.clone() }.to_line(), refused);
            assert_eq!(Answer { snapshot, ..answer.clone() }.to_line(), refused);
        }
        for number in [4096, 65535, 65536, 65537, u64::MAX] {
            let mark = Mark { distance: 0, number };
            assert_eq!(Ask { place: Place::After { snapshot: 5, mark }, ..ask.clone() }.to_line(), refused);
            assert_eq!(Answer { after: Some(mark), ..answer.clone() }.to_line(), refused);
        }
        let item = Item { number: 4096, reference: 0, distance: 0 };
        assert_eq!(Answer { items: vec![item], ..answer.clone() }.to_line(), refused);
        let item = Item { number: 0, ..item };
        for count in [17, 256, 272] {
            assert_eq!(Answer { items: vec![item; count], ..answer.clone() }.to_line(), refused);
        }
    }
}

#[test]
fn every_digit_changed() {
    let from = &mut Seeded(33);
    for _ in 0..6 {
        for line in some_lines(from) {
            for at in 0..line.len() {
                for c in b"0123456789abcdefAFg \n\0\xff" {
                    let mut damaged = line.clone();
                    damaged[at] = *c;
                    read_all(&damaged);
                }
            }
        }
    }
}

#[test]
fn cut_doubled_and_in_upper_case() {
    let from = &mut Seeded(34);
    for _ in 0..20 {
        for line in some_lines(from) {
            for cut in 0..=line.len() {
                read_all(&line[..cut]);
                read_all(&line[cut..]);
                read_all(&[&line[..cut], b"\n"].concat());
                read_all(&[&line[..cut], b"0", &line[cut..]].concat());
            }
            read_all(&[&line[..], &line].concat());
            read_all(&[&line[..line.len() - 1], &line].concat());
            read_all(&line.to_ascii_uppercase());
        }
    }
}

#[test]
fn fields_at_their_edges() {
    let from = &mut Seeded(35);
    for _ in 0..4000 {
        for mut line in some_lines(from) {
            let edge =
                from.pick(&["00", "01", "02", "03", "04", "05", "06", "08", "09", "10", "11", "1000", "1001", "0fff", "ffff"]);
            let at = 2 * from.below((line.len() - 1 - edge.len()) / 2 + 1);
            line[at..at + edge.len()].copy_from_slice(edge.as_bytes());
            read_all(&line);
        }
    }
}

#[test]
fn the_sample_lines() {
    let mut table = nearby::Table::new(7, Measure::CityBlock, 1, 1024).unwrap();
    for (reference, place) in [(0x65, 2), (0x66, 3), (0x67, 9), (0x68, 6), (0x69, 5)] {
        let line = format!("03000000070101{reference:08x}{place:08x}\n");
        let claim = ClaimLine::from_line(line.as_bytes()).unwrap();
        table.enter(&[claim.reference], &claim.coordinates).unwrap();
    }
    let ask = b"010000000701010000000400000000000000050000000000000000000000000002\n";
    let answer = "02000000070101000000040000000000000005000005000000000000000000000002\
                  0001000000660000000000000001\
                  0004000000690000000000000001\n";
    assert_eq!(table.answer(ask).unwrap(), answer.as_bytes());
    let from_the_far_end = b"040000000701010000000400000000000000050000000000000000000000000002\n";
    let farthest = "05000000070101000000040000000000000005000005000000000000000000000002\
                    0002000000670000000000000005\
                    0000000000650000000000000002\n";
    assert_eq!(table.answer(from_the_far_end).unwrap(), farthest.as_bytes());
}
