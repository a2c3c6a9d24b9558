//! A controller of two heads. Their searches share one cache, and between two picks of the loom one of them makes a step.
//!
//!     rustc --edition 2021 -O examples/rust/controller.rs -L native=crates/board/out -l static=board
mod perillabeam;

use perillabeam::{cache_words, path_words, Answer, Direction, Record, Refused, Status};

const VERTICES: usize = 4;
const EDGES: usize = 3;
const SLOTS: usize = 4;

/// The graph (01's chart).
const TEXT: &[u8] = b"M,0,0\nM,1,5\nM,2,-\nM,3,-\nL,0,1,4\nL,1,2,3\nL,0,2,9\n";

/// The words of a cache, and of the longest path among four vertices.
type Cache = [u32; cache_words(VERTICES, EDGES, SLOTS)];
type Path = [u32; path_words(VERTICES - 1)];

struct Head {
    name: char,
    record: Record,
    finished: bool,
}

/// The controller: a cache whose trees all heads share.
struct Controller {
    cache: Cache,
    path: Path,
}

impl Controller {
    /// Opens the cache; before that, a text with a fault is refused and nothing is written.
    fn open() -> Result<Controller, Refused> {
        let mut cache: Cache = [0; cache_words(VERTICES, EDGES, SLOTS)];
        let needed = perillabeam::words_needed(VERTICES, EDGES, SLOTS)?;
        println!("words needed {needed}, lent {}", cache.len());
        if let Err(refused) =
            perillabeam::open(&mut cache, b"M,0,0\nM,2,5\n", Direction::Forward, SLOTS)
        {
            println!("a faulty text, {refused}");
        }
        perillabeam::open(&mut cache, TEXT, Direction::Forward, SLOTS)?;
        Ok(Controller {
            cache,
            path: [0; path_words(VERTICES - 1)],
        })
    }

    /// Opens the search of a head.
    fn begin(&mut self, name: char, start: u32, goal: u32) -> Result<Head, Refused> {
        print!("head {name}, from {start} to {goal}: ");
        match perillabeam::initialize(&mut self.cache, &[start], &[goal]) {
            Ok(record) => {
                println!("begun");
                Ok(Head {
                    name,
                    record,
                    finished: false,
                })
            }
            Err(refused) => {
                println!("{refused}");
                Err(refused)
            }
        }
    }

    /// The path of a head, once its search is solved.
    fn show(&mut self, head: &Head) {
        print!("head {}: ", head.name);
        match perillabeam::retrace(&self.cache, &head.record, &mut self.path) {
            Ok(moves) => print_path(&self.path[..path_words(moves)]),
            Err(refused) => println!("{refused}"),
        }
    }

    /// One step of a head's search.
    fn advance(&mut self, head: &mut Head) -> Result<(), Refused> {
        print!("head {}: ", head.name);
        let answer = perillabeam::step(&mut self.cache, &mut head.record)
            .inspect_err(|refused| println!("{refused}"))?;
        print_answer(&answer);
        head.finished = answer.status != Status::Incomplete;
        if let Status::Solved { .. } = answer.status {
            self.show(head);
        }
        Ok(())
    }

    /// Picks, and after each a step of the head whose turn it is.
    fn run_picks(&mut self, heads: &mut [Head]) -> Result<(), Refused> {
        let mut pick = 0;
        while heads.iter().any(|head| !head.finished) {
            let head = &mut heads[pick % 2];
            pick += 1;
            if !head.finished {
                print!("pick {pick}, ");
                self.advance(head)?;
            }
        }
        Ok(())
    }

    /// A word changes under the controller: every call is refused, and changes nothing, until the word is put back.
    fn damage_and_mend(&mut self, head: &mut Head) -> Result<(), Refused> {
        let kept = self.cache[0];
        self.cache[0] = 2;
        println!("word 0 damaged: {}", self.sound());
        let _ = self.advance(head);
        self.cache[0] = kept;
        println!("word 0 put back: {}", self.sound());
        self.advance(head)
    }

    fn sound(&self) -> &'static str {
        if perillabeam::is_sound(&self.cache) {
            "sound"
        } else {
            "not sound"
        }
    }
}

/// A whole search by one call, with trees that grow from the goal.
fn plan_backward() -> Result<(), Refused> {
    let mut cache: Cache = [0; cache_words(VERTICES, EDGES, SLOTS)];
    let mut path: Path = [0; path_words(VERTICES - 1)];
    perillabeam::open(&mut cache, TEXT, Direction::Backward, SLOTS)?;
    let (answer, _) = perillabeam::plan(&mut cache, &[0], &[2], &mut path)?;
    print!("planned backward, waits {}: ", answer.waits);
    print_answer(&answer);
    if let (Status::Solved { moves, .. }, true) = (answer.status, answer.has_path) {
        print_path(&path[..path_words(moves)]);
    }
    Ok(())
}

fn print_answer(answer: &Answer) {
    match answer.status {
        Status::Incomplete => print!("incomplete"),
        Status::Solved { total_cost, moves } => {
            print!("solved, total cost {total_cost}, moves {moves}")
        }
        Status::Impossible => print!("impossible"),
    }
    println!(", tickets {}", answer.tickets);
}

fn print_path(words: &[u32]) {
    print!("path");
    for word in words {
        print!(" {word}");
    }
    println!();
}

fn main() -> Result<(), Refused> {
    let mut controller = Controller::open()?;
    // a goal that is no vertex is refused, and so is a path that is asked for too early
    let _ = controller.begin('A', 0, 9);
    let mut heads = [controller.begin('A', 0, 2)?, controller.begin('B', 1, 2)?];
    controller.show(&heads[0]);
    controller.run_picks(&mut heads)?;
    controller.damage_and_mend(&mut heads[0])?;
    plan_backward()
}
