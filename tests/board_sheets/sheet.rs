//! The order sheet of chart.txt and orders.txt of the current folder, as program `runs` prints it, with every call made through the
//! archive: an order's search is made in one of four ways, by the order's number. What is lent stands in vectors of just its size, so
//! that a tool that watches the heap sees any word past them. It panics if the calls do not agree with each other.
#[path = "../../examples/rust/perillabeam.rs"]
mod perillabeam;

use perillabeam::{
    initialize, is_sound, open, path_words, plan, retrace, solve, step, Answer, Direction, Record,
    Refusal, Refused, Status, MAX_LIST, MAX_PATH_WORDS,
};
use std::fs::File;
use std::io::{self, BufWriter, Read, Write};

const MAX_BYTES: usize = 65536;
const WORDS: usize = 16000;
const SLOTS: usize = 16;
const MARK: u32 = 0xA5A5_A5A5;

/// An order that was not refused, and its path.
struct Run {
    answer: Answer,
    path: Vec<u32>,
}

struct Order {
    direction: Direction,
    starts: Vec<u32>,
    goals: Vec<u32>,
}

/// A file's first bytes, one more than it may have.
fn read_file(name: &str) -> Option<Box<[u8]>> {
    let mut bytes = Vec::new();
    let read =
        File::open(name).and_then(|file| file.take(MAX_BYTES as u64 + 1).read_to_end(&mut bytes));
    match read {
        Ok(_) => Some(bytes.into_boxed_slice()),
        Err(error) => {
            eprintln!("{name}: {error}");
            None
        }
    }
}

/// A number has 1 to 10 digits and no zero in front. One past 32 bits is read as the largest, which is no vertex either.
fn read_number(field: &[u8]) -> Option<u32> {
    if field.is_empty()
        || field.len() > 10
        || (field.len() > 1 && field[0] == b'0')
        || !field.iter().all(u8::is_ascii_digit)
    {
        return None;
    }
    let sum = field
        .iter()
        .fold(0, |sum: u64, digit| 10 * sum + u64::from(digit - b'0'));
    Some(u32::try_from(sum).unwrap_or(u32::MAX))
}

/// Numbers parted by single spaces, or nothing. Of a longer list 65 are kept, which are over the limit as well.
fn read_list(field: &[u8]) -> Option<Vec<u32>> {
    if field.is_empty() {
        return Some(Vec::new());
    }
    let numbers: Option<Vec<u32>> = field.split(|b| *b == b' ').map(read_number).collect();
    numbers.map(|numbers| numbers[..numbers.len().min(MAX_LIST + 1)].to_vec())
}

/// `F` or `B`, starts, goals.
fn read_order(line: &[u8]) -> Option<Order> {
    let fields: Vec<&[u8]> = line.split(|b| *b == b',').collect();
    let [letter, starts, goals] = fields[..] else {
        return None;
    };
    let direction = match letter {
        b"F" => Direction::Forward,
        b"B" => Direction::Backward,
        _ => return None,
    };
    Some(Order {
        direction,
        starts: read_list(starts)?,
        goals: read_list(goals)?,
    })
}

/// The answer so far, with that of one call more.
fn sum(before: Answer, answer: Answer) -> Answer {
    Answer {
        waits: before.waits + answer.waits,
        tickets: before.tickets + answer.tickets,
        ..answer
    }
}

/// The path of a search that has finished: refused if it is not solved, or if a word is missing.
fn shown(words: &[u32], record: &Record, answer: Answer) -> Run {
    let mut path = vec![MARK; MAX_PATH_WORDS];
    let Status::Solved { moves, .. } = answer.status else {
        assert_eq!(
            retrace(words, record, &mut path),
            Err(Refused {
                refusal: Refusal::NotSolved,
                line: 0
            })
        );
        assert!(path.iter().all(|word| *word == MARK));
        return Run {
            answer,
            path: Vec::new(),
        };
    };
    let len = path_words(moves);
    assert_eq!(
        retrace(words, record, &mut path[..len - 1]),
        Err(Refused {
            refusal: Refusal::ShortPath,
            line: 0
        })
    );
    assert!(path.iter().all(|word| *word == MARK));
    assert_eq!(retrace(words, record, &mut path), Ok(moves));
    assert!(path[len..].iter().all(|word| *word == MARK));
    path.truncate(len);
    Run { answer, path }
}

/// A search by calls that each make some steps, until one answers.
fn by_calls(
    words: &mut [u32],
    order: &Order,
    call: fn(&mut [u32], &mut Record) -> Result<Answer, Refused>,
) -> Result<Run, Refused> {
    let mut record = Box::new(initialize(words, &order.starts, &order.goals)?);
    let mut answer = call(words, &mut record).expect("an own step is never refused");
    while answer.status == Status::Incomplete {
        answer = sum(
            answer,
            call(words, &mut record).expect("an own step is never refused"),
        );
    }
    Ok(shown(words, &record, answer))
}

/// A search by one call, with so much room for its path.
fn by_plan(words: &mut [u32], order: &Order, room: usize) -> Result<Run, Refused> {
    let mut path = vec![MARK; room];
    let planned = plan(words, &order.starts, &order.goals, &mut path);
    let len = match planned {
        Ok((
            Answer {
                status: Status::Solved { moves, .. },
                ..
            },
            _,
        )) if path_words(moves) <= room => path_words(moves),
        _ => 0,
    };
    assert!(path[len..].iter().all(|word| *word == MARK));
    let (answer, record) = planned?;
    assert_eq!(answer.has_path, len != 0);
    if len == 0 {
        return Ok(shown(words, &record, answer));
    }
    path.truncate(len);
    Ok(Run { answer, path })
}

fn run_order(number: usize, words: &mut [u32], order: &Order) -> Result<Run, Refused> {
    match number % 4 {
        0 => by_calls(words, order, step),
        1 => by_plan(words, order, MAX_PATH_WORDS),
        2 => by_calls(words, order, |words, record| solve(words, record, 2)),
        _ => by_plan(words, order, 2),
    }
}

/// The line of an order, which is given without its LF.
fn put_order(
    out: &mut impl Write,
    number: usize,
    caches: &mut [Vec<u32>; 2],
    line: &[u8],
) -> io::Result<()> {
    let Some(order) = read_order(line) else {
        return writeln!(
            out,
            "{number},refused {},-,0,0,-",
            Refusal::Malformed as u32
        );
    };
    let words = &mut caches[order.direction as usize];
    let kept = words.clone();
    let run = run_order(number, words, &order);
    assert!(is_sound(words));
    let Run { answer, path } = match run {
        Ok(run) => run,
        Err(refused) => {
            assert_eq!(*words, kept);
            return writeln!(out, "{number},refused {},-,0,0,-", refused.refusal as u32);
        }
    };
    let Status::Solved { total_cost, .. } = answer.status else {
        return writeln!(out, "{number},none,-,{},{},-", answer.waits, answer.tickets);
    };
    let path: Vec<String> = path.iter().map(u32::to_string).collect();
    writeln!(
        out,
        "{number},solved,{total_cost},{},{},{}",
        answer.waits,
        answer.tickets,
        path.join(" ")
    )
}

/// Both caches, if no file is too long and the chart is not refused.
fn open_caches(chart: &[u8], orders: &[u8]) -> Result<[Vec<u32>; 2], Refused> {
    if chart.len() > MAX_BYTES || orders.len() > MAX_BYTES {
        return Err(Refused {
            refusal: Refusal::OverLimit,
            line: 0,
        });
    }
    let mut caches = [vec![MARK; WORDS], vec![MARK; WORDS]];
    for (words, direction) in caches
        .iter_mut()
        .zip([Direction::Forward, Direction::Backward])
    {
        let opened = open(words, chart, direction, SLOTS);
        assert!(opened.is_ok() || words.iter().all(|word| *word == MARK));
        opened?;
    }
    Ok(caches)
}

fn put_sheet(out: &mut impl Write, chart: &[u8], orders: &[u8]) -> io::Result<()> {
    let mut caches = match open_caches(chart, orders) {
        Ok(caches) => caches,
        Err(refused) => return writeln!(out, "refused {}", refused.refusal as u32),
    };
    writeln!(out, "order,answer,total,waits,tickets,run")?;
    for (number, line) in orders.split_inclusive(|b| *b == b'\n').enumerate() {
        // a last line without LF is no order, but has a number
        put_order(
            out,
            number,
            &mut caches,
            line.strip_suffix(b"\n").unwrap_or(b""),
        )?;
    }
    Ok(())
}

fn main() -> io::Result<()> {
    let mut out = BufWriter::new(io::stdout());
    if let (Some(chart), Some(orders)) = (read_file("chart.txt"), read_file("orders.txt")) {
        put_sheet(&mut out, &chart, &orders)?;
    }
    out.flush()
}
