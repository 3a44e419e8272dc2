//! The rules told again in plain Rust, without a tree in the questions and without the library, and seeded numbers.

// Each test file uses its own part of this.
#![allow(dead_code)]

use std::cmp::Reverse;

use nearby::{Item, Mark, Measure, Order, Place, Refusal, Table};

/// splitmix64: the same seed gives the same run.
pub struct Seeded(pub u64);

impl Seeded {
    pub fn next(&mut self) -> u64 {
        self.0 = self.0.wrapping_add(0x9e37_79b9_7f4a_7c15);
        let mut z = self.0;
        z = (z ^ (z >> 30)).wrapping_mul(0xbf58_476d_1ce4_e5b9);
        z = (z ^ (z >> 27)).wrapping_mul(0x94d0_49bb_1331_11eb);
        z ^ (z >> 31)
    }

    pub fn below(&mut self, n: usize) -> usize {
        (self.next() % n as u64) as usize
    }

    pub fn one_in(&mut self, n: usize) -> bool {
        self.below(n) == 0
    }

    pub fn pick<T: Copy>(&mut self, from: &[T]) -> T {
        from[self.below(from.len())]
    }
}

/// How claims lie.
#[derive(Clone, Copy, Debug, PartialEq)]
pub enum Style {
    Tied,
    Anywhere,
    Alike,
    AtTheEnds,
    /// The deepest tree, where a run has one coordinate a claim: each claim is nearer to the one before it than to all others.
    InALine,
}

pub const STYLES: [Style; 4] = [Style::Tied, Style::Anywhere, Style::Alike, Style::AtTheEnds];

pub fn drawn(from: &mut Seeded, style: Style, n: usize) -> Vec<i32> {
    (0..n)
        .map(|i| match style {
            Style::Tied => from.below(5) as i32 - 2,
            Style::Anywhere => from.next() as i32,
            Style::Alike => 4,
            Style::AtTheEnds => from.pick(&[i32::MIN, i32::MIN + 1, i32::MAX - 1, i32::MAX]),
            Style::InALine => i as i32,
        })
        .collect()
}

/// A table's claims, kept apart from the library.
#[derive(Clone)]
pub struct Claims {
    pub number: u32,
    pub measure: Measure,
    pub d: usize,
    pub all: Vec<(u32, Vec<i32>)>,
}

pub fn distance(measure: Measure, a: &[i32], b: &[i32]) -> u64 {
    let gaps = a.iter().zip(b).map(|(&x, &y)| (i64::from(x) - i64::from(y)).unsigned_abs());
    match measure {
        Measure::CityBlock => gaps.sum(),
        Measure::Maximum => gaps.max().unwrap_or(0),
        Measure::Hamming => gaps.filter(|&g| g != 0).count() as u64,
    }
}

impl Claims {
    fn item(&self, number: usize, probe: &[i32]) -> Item {
        let (reference, place) = &self.all[number];
        Item { number: number as u16, reference: *reference, distance: distance(self.measure, place, probe) }
    }

    /// The claims within reach among the first so many, in an order.
    pub fn listed(&self, order: Order, probe: &[i32], reach: u64, snapshot: usize) -> Vec<Item> {
        let mut items: Vec<Item> = (0..snapshot).map(|i| self.item(i, probe)).filter(|item| item.distance <= reach).collect();
        match order {
            Order::Near => items.sort_by_key(|item| (item.distance, item.number)),
            Order::Far => items.sort_by_key(|item| (Reverse(item.distance), item.number)),
        }
        items
    }

    pub fn farthest(&self, probe: &[i32]) -> Option<Item> {
        (0..self.all.len()).map(|i| self.item(i, probe)).max_by_key(|item| (item.distance, Reverse(item.number)))
    }

    /// What a page has, and whether none of the sorted claims stands behind it, by its refusals 7 and 8.
    pub fn page(&self, order: Order, probe: &[i32], reach: u64, place: Place, size: usize) -> Result<(Vec<Item>, bool), Refusal> {
        let (snapshot, mark) = match place {
            Place::Start => (self.all.len(), None),
            Place::After { snapshot, mark } => (snapshot as usize, Some(mark)),
        };
        if snapshot > self.all.len() {
            return Err(Refusal::SnapshotOverCount);
        }
        let all = self.listed(order, probe, reach, snapshot);
        let behind = match mark {
            None => 0,
            Some(mark) => 1 + all.iter().position(|item| item.mark() == mark).ok_or(Refusal::MarkNotHeld)?,
        };
        let mut left = all[behind..].iter().copied();
        let items: Vec<Item> = left.by_ref().take(size).collect();
        Ok((items, left.next().is_none()))
    }

    /// A place after some claim's mark, right or nearly so.
    pub fn some_place(&self, from: &mut Seeded, probe: &[i32]) -> Place {
        if self.all.is_empty() || from.one_in(4) {
            return Place::Start;
        }
        let item = self.item(from.below(self.all.len()), probe);
        let snapshot = from.below(self.all.len() + 2) as u64;
        let distance = if from.one_in(4) { item.distance.wrapping_add(1) } else { item.distance };
        Place::After { snapshot, mark: Mark { distance, number: item.number.into() } }
    }

    pub fn some_reach(&self, from: &mut Seeded, probe: &[i32]) -> u64 {
        if self.all.is_empty() || from.one_in(4) {
            return from.pick(&[0, 1, u64::MAX]);
        }
        self.item(from.below(self.all.len()), probe).distance
    }
}

/// A table with n generated claims, entered in runs, and the same claims apart from it.
pub fn filled(from: &mut Seeded, measure: Measure, d: usize, capacity: usize, n: usize, style: Style) -> (Table, Claims) {
    let number = from.next() as u32;
    let mut table = Table::new(number, measure, d, capacity).unwrap();
    let mut claims = Claims { number, measure, d, all: Vec::new() };
    while claims.all.len() < n {
        let left = n - claims.all.len();
        let run = if left > 200 { left } else { 1 + from.below(left) };
        enter(from, &mut table, &mut claims, run, style);
    }
    assert_eq!(table.len(), n);
    (table, claims)
}

/// The reference that a generated table's claim gets: it looks like any other number. Each step can be undone, so no two of a table are
/// alike.
pub fn reference(table: &Table, claim: usize) -> u32 {
    let mut x = table.number().wrapping_add(claim as u32);
    x = (x ^ (x >> 16)).wrapping_mul(0x85eb_ca6b);
    x = (x ^ (x >> 13)).wrapping_mul(0xc2b2_ae35);
    x ^ (x >> 16)
}

pub fn enter(from: &mut Seeded, table: &mut Table, claims: &mut Claims, n: usize, style: Style) {
    let references: Vec<u32> = (table.len()..table.len() + n).map(|claim| reference(table, claim)).collect();
    let run = drawn(from, style, n * claims.d);
    table.enter(&references, &run).unwrap();
    claims.all.extend(references.into_iter().zip(run.chunks(claims.d).map(<[i32]>::to_vec)));
    assert_eq!(table.len(), claims.all.len());
}

/// [3.3] A node of the tree.
struct Node {
    room: usize,
    left: usize,
    right: Option<usize>,
    far: [u64; 2],
    below: [Option<Box<Node>>; 2],
}

/// The nodes that entering the claims one by one gives.
pub fn nodes(claims: &Claims) -> Vec<u64> {
    let (mut root, mut used) = (None, 0);
    for claim in 0..claims.all.len() {
        let mut here: &mut Option<Box<Node>> = &mut root;
        loop {
            let Some(node) = here else {
                *here = Some(Box::new(Node { room: used, left: claim, right: None, far: [0, 0], below: [None, None] }));
                used += 1;
                break;
            };
            let Some(right) = node.right else {
                node.right = Some(claim);
                break;
            };
            let apart = [node.left, right].map(|c| distance(claims.measure, &claims.all[c].1, &claims.all[claim].1));
            let side = usize::from(apart[1] < apart[0]);
            node.far[side] = node.far[side].max(apart[side]);
            here = &mut node.below[side];
        }
    }
    let mut numbers = vec![0; used * 6];
    let mut open: Vec<&Node> = root.as_deref().into_iter().collect();
    while let Some(node) = open.pop() {
        let below = |side: usize| node.below[side].as_ref().map_or(0, |n| n.room as u64 + 1);
        let right = node.right.map_or(0, |c| c as u64 + 1);
        numbers[node.room * 6..][..6].copy_from_slice(&[
            node.left as u64 + 1,
            right,
            node.far[0],
            node.far[1],
            below(0),
            below(1),
        ]);
        open.extend(node.below.iter().flatten().map(|n| n.as_ref()));
    }
    // The tree of claims that are all alike is a chain of thousands of boxes: it is taken apart in a loop, and not by recursion.
    let mut left: Vec<Box<Node>> = root.into_iter().collect();
    while let Some(mut node) = left.pop() {
        left.extend(node.below.iter_mut().filter_map(Option::take));
    }
    numbers
}
