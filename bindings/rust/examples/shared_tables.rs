//! One thread serves turns over shared tables; several clients send their plans and saved states, and merge what comes back.
//!
//! The service keeps nothing of a query between turns: the state goes back to the client with each turn's list. How many steps a
//! turn gets changes from turn to turn; the totals do not. Each upload is a survey with a number of its own, so that a client which comes
//! with a state of yesterday's is refused by 22, and begins its query anew.
//!
//!     cargo run --example shared_tables

use std::error::Error;
use std::sync::mpsc::{channel, Receiver, Sender};
use std::sync::Arc;
use std::thread;

use sotjarn::Term::{Name, Number};
use sotjarn::{
    Branch, Comparison, Condition, Kept, Key, List, Plan, Query, Refusal, Survey, TableWords, Turn, TurnEnding, Variable,
};

const STEM: Variable = Variable(0);
const STAND: Variable = Variable(1);
const SIZE: Variable = Variable(2);

/// The words of a turn's output on the service.
const OUTPUT_WORDS: usize = 256;

/// Tables as they were uploaded, and the number that they were given.
struct Uploaded {
    wood: TableWords,
    number: u32,
}

impl Uploaded {
    fn survey(&self) -> Survey<'_> {
        self.wood.survey(self.number)
    }
}

/// What a client sends: its plan, its saved state (none at first), and a threshold or none.
struct Request {
    plan: Vec<u32>,
    state: Vec<u32>,
    threshold: Vec<u32>,
    reply: Sender<Result<Reply, Refusal>>,
}

/// What the service sends back: the turn, and the state for the next one.
struct Reply {
    turn: Turn,
    state: Vec<u32>,
}

/// What a client has at the end of its query.
struct Finished {
    anew: bool,
    turns: u32,
    steps: u64,
    list: List,
}

/// Quanta that follow no pattern: a small generator (xorshift).
struct Quanta(u32);

impl Quanta {
    fn next(&mut self) -> u32 {
        self.0 ^= self.0 << 13;
        self.0 ^= self.0 >> 17;
        self.0 ^= self.0 << 5;
        1 + self.0 % 5_000
    }
}

/// One turn for a client.
fn serve_turn(survey: Survey, request: &Request, quantum: u32) -> Result<Reply, Refusal> {
    let mut query = match request.state.is_empty() {
        true => Query::open(survey, &request.plan)?,
        false => Query::load(survey, &request.plan, &request.state),
    };
    let mut output = [0; OUTPUT_WORDS];
    let turned = query.turn(quantum, &request.threshold, &mut output)?;
    let list = output[..turned.list_words].to_vec();
    Ok(Reply {
        turn: Turn {
            steps: turned.steps,
            ending: turned.ending,
            list,
        },
        state: query.state().to_vec(),
    })
}

/// The service: takes requests as they come, until every client has gone.
fn serve(uploaded: Arc<Uploaded>, requests: Receiver<Request>) -> u64 {
    let mut quanta = Quanta(2_463_534_242);
    let mut served = 0;
    for request in requests {
        let answer = serve_turn(uploaded.survey(), &request, quanta.next());
        served += u64::from(answer.is_ok());
        // A client that has gone away needs no answer.
        let _ = request.reply.send(answer);
    }
    served
}

/// A client: sends its query until it is done, from a saved state or from its opening, and takes each list as it comes.
fn ask(plan: &Plan, saved: Vec<u32>, service: Sender<Request>) -> Result<Finished, Box<dyn Error + Send + Sync>> {
    let (reply, replies) = channel();
    let (mut kept, mut state, mut anew) = (Kept::new(plan), saved, false);
    let (mut turns, mut steps) = (0, 0);
    loop {
        let (words, threshold) = (plan.words().to_vec(), kept.threshold().to_vec());
        service
            .send(Request {
                plan: words,
                state,
                threshold,
                reply: reply.clone(),
            })
            .map_err(|_| "the service has gone")?;
        let answer = match replies.recv()? {
            // There are other tables now: what was kept is of the survey before, and the query begins anew.
            Err(Refusal::Survey) => {
                (kept, state, anew) = (Kept::new(plan), Vec::new(), true);
                (turns, steps) = (0, 0);
                continue;
            }
            answer => answer?,
        };
        kept.take(&answer.turn.list)?;
        turns += 1;
        steps += u64::from(answer.turn.steps);
        state = answer.state;
        if answer.turn.ending == TurnEnding::Done {
            return Ok(Finished {
                anew,
                turns,
                steps,
                list: kept.list()?,
            });
        }
    }
}

/// A wood of so many stems, each with its stand (n10) and its diameter (n12), grown from a seed.
fn wood(stems: u32) -> TableWords {
    TableWords::grow(1, stems, 2026).expect("so many stems may be grown")
}

/// Stems with stand and diameter, from a diameter on.
fn stems(least: i32) -> Branch {
    let condition = Condition::compare(SIZE, Comparison::AtLeast, Number(least));
    Branch::new()
        .pattern(STEM, Name(10), STAND)
        .pattern(STEM, Name(12), SIZE)
        .condition(condition)
}

/// The same query in one turn gives the same list.
fn compare(survey: Survey, plan: &Plan, finished: &Finished) -> Result<(), Box<dyn Error + Send + Sync>> {
    let mut uncut = Query::open(survey, plan.words())?;
    let whole = uncut.turns(sotjarn::MOST_STEPS, 1 << 16).next().expect("a first turn")?;
    assert_eq!(
        (u64::from(whole.steps), plan.read(&whole.list)?),
        (finished.steps, finished.list.clone())
    );
    Ok(())
}

fn print(owner: &str, finished: &Finished) {
    println!("{owner}: {} steps", finished.steps);
    match &finished.list {
        List::Rows(rows) => {
            for row in rows {
                println!(
                    "  {}",
                    row.iter().map(|value| value.to_string()).collect::<Vec<_>>().join(" ")
                );
            }
        }
        List::Groups(groups) => {
            for group in groups {
                let keys: Vec<String> = group.keys.iter().map(|value| value.to_string()).collect();
                let sizes = match (group.least, group.greatest) {
                    (Some(least), Some(greatest)) => format!(", {least} to {greatest}"),
                    _ => String::new(),
                };
                println!("  {:5} {} stems, sum {}{sizes}", keys.join(" "), group.rows, group.sum);
            }
        }
        List::Registers(registers) => println!("  registers {registers:?}"),
    }
}

fn main() -> Result<(), Box<dyn Error + Send + Sync>> {
    let first = Arc::new(Uploaded {
        wood: wood(5_000),
        number: 1,
    });
    let owners = [
        ("totals by stand", Plan::builder().branch(stems(70)).group([STAND], SIZE)?),
        ("the whole wood", Plan::builder().branch(stems(0)).group([], SIZE)?),
        (
            "stems past 620, of which there are none",
            Plan::builder().branch(stems(621)).group([], SIZE)?,
        ),
        (
            "the five largest",
            Plan::builder().branch(stems(0)).top(5, [STEM, SIZE], [Key::Falling(SIZE)])?,
        ),
        (
            "stems of 618 and more",
            Plan::builder().branch(stems(618)).rows([STEM, STAND, SIZE])?,
        ),
    ];

    let (service, requests) = channel();
    let shared = Arc::clone(&first);
    let server = thread::spawn(move || serve(shared, requests));
    let clients: Vec<_> = owners
        .iter()
        .cloned()
        .map(|(_, plan)| {
            let service = service.clone();
            thread::spawn(move || ask(&plan, Vec::new(), service))
        })
        .collect();
    drop(service);

    let mut turns = 0;
    for ((owner, plan), client) in owners.iter().zip(clients) {
        let finished = client.join().expect("the client ends")?;
        print(owner, &finished);
        turns += u64::from(finished.turns);
        compare(first.survey(), plan, &finished)?;
    }
    assert_eq!(server.join().expect("the service ends"), turns);

    // The next upload; a client goes on with what it had saved before it.
    let (owner, plan) = &owners[0];
    let mut query = Query::open(first.survey(), plan.words())?;
    query.turn(1_000, &[], &mut [0; OUTPUT_WORDS])?;
    let next = Arc::new(Uploaded {
        wood: wood(5_100),
        number: 2,
    });
    let (service, requests) = channel();
    let shared = Arc::clone(&next);
    let server = thread::spawn(move || serve(shared, requests));
    let finished = ask(plan, query.state().to_vec(), service)?;
    assert!(finished.anew, "a state of survey 1 does not go on in survey 2");
    print(&format!("{owner}, begun anew over the next survey"), &finished);
    compare(next.survey(), plan, &finished)?;
    assert_eq!(server.join().expect("the service ends"), u64::from(finished.turns));

    println!("every list is that of the uncut run");
    Ok(())
}
