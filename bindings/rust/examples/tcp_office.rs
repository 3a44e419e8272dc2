//! An office that serves tablets over TCP: lines ended by 0A, an answer line to each ask, nothing to a claim that is entered, and
//! `refused N` to the rest, as the program `office` does. Tablets load lists, every other one from its far end, while two adjusters send
//! the same claims: each is entered once, and who sent it second is told 17.
//!
//!     cargo run --example tcp_office [TABLETS [CLAIMS]]

use std::cmp::Reverse;
use std::env;
use std::error::Error;
use std::io::{self, BufRead, BufReader, Write};
use std::net::{TcpListener, TcpStream};
use std::ops::Range;
use std::process::ExitCode;
use std::sync::RwLock;
use std::thread;

use nearby::{ClaimLine, List, Measure, Order, Refusal, Table, ANSWER_LINE, MOST_CLAIMS};

type Outcome<T> = Result<T, Box<dyn Error + Send + Sync>>;

const NUMBER: u32 = 7;
const MEASURE: Measure = Measure::Maximum;
/// As many connections as surely wait until the office takes them up.
const MOST_TABLETS: usize = 64;
const ADJUSTERS: usize = 2;

/// The next line with its 0A; a last one without it comes as it is. Of an overlong line the front is kept, one character more than a
/// line may have, so that it is refused once and takes no more memory.
fn next_line(reader: &mut impl BufRead) -> io::Result<Option<Vec<u8>>> {
    let mut line = Vec::new();
    loop {
        let some = reader.fill_buf()?;
        let end = some.iter().position(|&c| c == b'\n').map(|at| at + 1);
        let used = end.unwrap_or(some.len());
        let kept = used.min(ANSWER_LINE + 1 - line.len());
        line.extend_from_slice(&some[..kept]);
        reader.consume(used);
        if end.is_some() || used == 0 {
            return Ok((!line.is_empty()).then_some(line));
        }
    }
}

// ---- the office

fn enter(table: &RwLock<Table>, claim: &ClaimLine) -> Result<(), Refusal> {
    let mut table = table.write().expect("no thread panics with the table");
    if (claim.table, claim.measure, claim.coordinates.len()) != (table.number(), table.measure(), table.d()) {
        return Err(Refusal::NotThisTable);
    }
    table.enter(&[claim.reference], &claim.coordinates)
}

/// What the office says to a line: nothing, an answer, or a refusal.
fn say(table: &RwLock<Table>, line: &[u8]) -> Result<Vec<u8>, Refusal> {
    match ClaimLine::from_line(line) {
        Ok(claim) => enter(table, &claim).map(|()| Vec::new()),
        Err(Refusal::NotThisKind) => table.read().expect("no thread panics with the table").answer(line),
        Err(refused) => Err(refused),
    }
}

fn serve(table: &RwLock<Table>, stream: TcpStream) -> Outcome<()> {
    let mut out = stream.try_clone()?;
    let mut reader = BufReader::new(stream);
    while let Some(line) = next_line(&mut reader)? {
        match say(table, &line) {
            Ok(said) => out.write_all(&said)?,
            Err(refused) => writeln!(out, "refused {}", refused.number())?,
        }
    }
    Ok(())
}

/// Serves so many connections, each on a thread of its own, to their ends.
fn office(table: &RwLock<Table>, listener: TcpListener, connections: usize) -> Outcome<()> {
    thread::scope(|scope| {
        let mut served = Vec::new();
        for stream in listener.incoming().take(connections) {
            let stream = stream?;
            served.push(scope.spawn(move || serve(table, stream)));
        }
        served.into_iter().try_for_each(|thread| thread.join().expect("serving does not panic"))
    })
}

// ---- those who call it

/// The i-th claim as an adjuster has it: the same reference for both, and points that are a step apart.
fn claim(i: usize, adjuster: usize) -> ClaimLine {
    let at = i as i32;
    let coordinates = vec![at.wrapping_mul(7919) % 1000 + adjuster as i32, at.wrapping_mul(104_729) % 1000];
    ClaimLine { table: NUMBER, measure: MEASURE, reference: 1000 + i as u32, coordinates }
}

/// What an adjuster heard: how many of its claims were in the table already, and how many damaged lines were refused.
struct Heard {
    repeated: usize,
    damaged: usize,
}

/// Sends claims, and then lines that the office has to refuse.
fn adjuster(mut stream: TcpStream, claims: Range<usize>, at: usize) -> Outcome<Heard> {
    let mut reader = BufReader::new(stream.try_clone()?);
    for i in claims {
        stream.write_all(&claim(i, at).to_line()?)?;
    }
    let mut heard = Heard { repeated: 0, damaged: 0 };
    let elsewhere = ClaimLine { table: NUMBER + 1, measure: MEASURE, reference: 0, coordinates: vec![0, 0] };
    let damaged: [(&[u8], &[u8]); 4] = [
        (b"no digits\n", b"refused 9\n"),
        (&[b'0'; 3 * ANSWER_LINE], b""),
        (b"\n", b"refused 9\n"),
        (&elsewhere.to_line()?, b"refused 11\n"),
    ];
    for (line, expected) in damaged {
        stream.write_all(line)?;
        if expected.is_empty() {
            continue;
        }
        let mut said = next_line(&mut reader)?;
        // What the office said to the claims comes first. It is no fault: the other adjuster's claim is in the table.
        while said.as_deref() == Some(b"refused 17\n") {
            heard.repeated += 1;
            said = next_line(&mut reader)?;
        }
        if said.as_deref() != Some(expected) {
            return Err("the office did not refuse a line as it should".into());
        }
        heard.damaged += 1;
    }
    Ok(heard)
}

/// Loads a list to its end; gives it with the number of its pages.
fn tablet(mut stream: TcpStream, at: usize) -> Outcome<(List, usize)> {
    let mut reader = BufReader::new(stream.try_clone()?);
    let mut list = List::open(Order::ALL[at % 2], NUMBER, MEASURE, &[50 * at as i32, -30 * at as i32], 400, MOST_CLAIMS)?;
    let mut pages = 0;
    while !list.is_complete() {
        stream.write_all(&list.write_ask(1 + at % 16)?)?;
        let answer = next_line(&mut reader)?.ok_or("the office hung up")?;
        list.take(&answer)?;
        pages += 1;
    }
    Ok((list, pages))
}

// ---- the check: measuring every claim of the snapshot

fn holds(table: &Table, list: &List) -> bool {
    let snapshot = list.snapshot().expect("a complete list has its snapshot") as usize;
    let apart = |number: usize| {
        let place = table.claim(number).expect("the table only grows").place;
        place.iter().zip(list.probe()).map(|(a, b)| u64::from(a.abs_diff(*b))).max().expect("d is not 0")
    };
    let mut within: Vec<(u64, usize)> = (0..snapshot).map(|n| (apart(n), n)).filter(|(far, _)| *far <= list.reach()).collect();
    match list.order() {
        Order::Near => within.sort_unstable(),
        Order::Far => within.sort_unstable_by_key(|&(far, n)| (Reverse(far), n)),
    }
    list.items().map(|item| (item.distance, item.number.into())).eq(within)
}

fn argument(at: usize, otherwise: usize) -> Outcome<usize> {
    let Some(word) = env::args().nth(at) else { return Ok(otherwise) };
    word.parse().map_err(|_| format!("{word} is not a number; usage: tcp_office [TABLETS [CLAIMS]]").into())
}

fn run() -> Outcome<()> {
    let (tablets, claims) = (argument(1, 4)?, argument(2, 600)?);
    if tablets > MOST_TABLETS {
        return Err(format!("at most {MOST_TABLETS} tablets").into());
    }
    let mut table = Table::new(NUMBER, MEASURE, 2, claims)?;
    let early = claims / 3;
    for i in 0..early {
        let ClaimLine { reference, coordinates, .. } = claim(i, 0);
        table.enter(&[reference], &coordinates)?;
    }
    let table = RwLock::new(table);
    let listener = TcpListener::bind("127.0.0.1:0")?;
    let address = listener.local_addr()?;
    println!("the office listens on {address} and has {early} claims");

    // Connected before the office takes them up, so that it never waits for one that does not come.
    let entering = (0..ADJUSTERS).map(|_| TcpStream::connect(address)).collect::<io::Result<Vec<_>>>()?;
    let loading = (0..tablets).map(|_| TcpStream::connect(address)).collect::<io::Result<Vec<_>>>()?;
    let (heard, loaded) = thread::scope(|scope| -> Outcome<_> {
        let office = scope.spawn(|| office(&table, listener, tablets + ADJUSTERS));
        let adjusters: Vec<_> = entering
            .into_iter()
            .enumerate()
            .map(|(at, stream)| scope.spawn(move || adjuster(stream, early..claims, at)))
            .collect();
        let tablets: Vec<_> =
            loading.into_iter().enumerate().map(|(at, stream)| scope.spawn(move || tablet(stream, at))).collect();
        let lists = tablets.into_iter().map(|t| t.join().expect("a tablet does not panic")).collect::<Outcome<Vec<_>>>()?;
        let heard = adjusters.into_iter().map(|a| a.join().expect("an adjuster does not panic")).collect::<Outcome<Vec<_>>>()?;
        office.join().expect("the office does not panic")?;
        Ok((heard, lists))
    })?;
    let table = table.into_inner().expect("no thread panicked with the table");
    if table.len() != claims || heard.iter().map(|one| one.repeated).sum::<usize>() != claims - early {
        return Err("a claim that both adjusters sent is in the table more or less than once".into());
    }
    report(&table, &loaded, &heard)
}

fn report(table: &Table, loaded: &[(List, usize)], heard: &[Heard]) -> Outcome<()> {
    for (at, (list, pages)) in loaded.iter().enumerate() {
        if !holds(table, list) {
            return Err(format!("the list of tablet {at} is not what measuring every claim gives").into());
        }
        let snapshot = list.snapshot().expect("a complete list has its snapshot");
        let first = match list.order() {
            Order::Near => "nearest",
            Order::Far => "farthest",
        };
        println!(
            "tablet {at}: {} claims within {}, of the first {snapshot}, {first} first, in {pages} pages; complete",
            list.len(),
            list.reach()
        );
    }
    for (at, Heard { repeated, damaged }) in heard.iter().enumerate() {
        println!("adjuster {at}: {repeated} claims were there already; {damaged} damaged lines were refused as they should be");
    }
    println!("the table has {} claims now, each once.", table.len());
    Ok(())
}

fn main() -> ExitCode {
    match run() {
        Ok(()) => ExitCode::SUCCESS,
        Err(error) => {
            eprintln!("tcp_office: {error}");
            ExitCode::FAILURE
        }
    }
}
