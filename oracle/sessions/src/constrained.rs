//! The constraint polynomial, in pieces as a host calls them one after the other, and in one call, compared with the original's.

use crate::record::{encoded, framed, pool_frames, said, UNWRITTEN};
use crate::searched;
use enonkasse_sys::{
    self as library, CONSTRAINT_NUMBERS, CONSTRAINT_TOTALS, CONTEXT_SIZE, LIST_ROOM,
    MAX_FRAMES_SIZE, SET_WORDS, STEP_SIZE,
};
use judge::answer::StepBytes;
use judge::hex;
use judge::pool::Pool;
use judge::script::{Command, Request, Script};
use searches::constraint::{Built, Constraint, Made};
use searches::question::{Answer, Given, Question};
use searches::search::Found;
use searches::tally::{Labelled, Questions, Said, Tally};

/// Why a piece did not come to its end: its number, or what is wrong with what it left.
enum Stop {
    Refused(u8),
    Wrong(String),
}

impl From<String> for Stop {
    fn from(text: String) -> Stop {
        Stop::Wrong(text)
    }
}

fn done(number: u8) -> Result<(), Stop> {
    if number == 0 {
        return Ok(());
    }
    Err(Stop::Refused(number))
}

/// A context with its list.
#[derive(Clone, PartialEq, Eq)]
struct Lent {
    context: Vec<u8>,
    list: Vec<u8>,
}

impl Lent {
    /// A fresh one after these commands.
    fn after(commands: &[Command], pool: &[u8]) -> Result<Lent, Stop> {
        let mut lent =
            Lent { context: vec![0; CONTEXT_SIZE], list: vec![0; STEP_SIZE * LIST_ROOM] };
        done(library::fresh(&mut lent.context))?;
        for command in commands {
            match command {
                Command::Request(request) => lent.serve(pool, &[*request])?,
                Command::Build => drop(lent.build(pool)?),
            }
        }
        Ok(lent)
    }

    fn serve(&mut self, pool: &[u8], requests: &[Request]) -> Result<(), Stop> {
        let mut frames = pool.to_vec();
        frames.extend(framed(requests.iter().map(Request::frame)));
        done(library::serve(&frames, 0, 0, &mut self.context, &mut self.list))
    }

    /// The three lists as they are lent.
    fn build(&mut self, pool: &[u8]) -> Result<[Vec<u8>; 3], Stop> {
        let room = vec![0; STEP_SIZE * LIST_ROOM];
        let (mut lists, mut sizes) = ([room.clone(), room.clone(), room], [0; 3]);
        let [first, i, last] = &mut lists;
        let context = &mut self.context;
        done(library::build(pool, context, &self.list, first, i, last, &mut sizes))?;
        lists.iter_mut().zip(sizes).for_each(|(list, size)| list.truncate(STEP_SIZE * size));
        Ok(lists)
    }

    /// Its lists and its state after a build.
    fn built(&self, lists: [Vec<u8>; 3], pool: &Pool) -> Result<Built, Stop> {
        let steps = |list: Vec<u8>| -> Result<Vec<StepBytes>, String> {
            let step = |record| encoded(record, pool).map(StepBytes::encoded);
            let steps: Option<_> = list.chunks(STEP_SIZE).map(step).collect();
            steps.ok_or_else(|| "a step that generation does not make\n".to_string())
        };
        let [first, i, last] = lists;
        let (first, i, last) = (steps(first)?, steps(i)?, steps(last)?);
        let (state, ..) =
            said(&self.context, pool.expressions().len()).ok_or("a bad context\n".to_string())?;
        Ok(Built { first, i, last, state })
    }
}

/// The pool with the constraint.
struct Extended {
    frames: Vec<u8>,
    pool: Pool,
    numbers: [usize; CONSTRAINT_NUMBERS],
}

fn extended(
    constraint: &Constraint,
    chosen: &[u64; SET_WORDS],
    q: usize,
) -> Result<Extended, Stop> {
    let Constraint { n_cm1, n_cm2, commitments, vc, ref search, .. } = *constraint;
    let (mut out, mut numbers) = (vec![0; MAX_FRAMES_SIZE], [0; CONSTRAINT_NUMBERS]);
    done(library::constraint_pool(
        &pool_frames(&search.pool),
        &searched::identities(search),
        chosen,
        vc,
        n_cm1.into(),
        n_cm2.into(),
        commitments.into(),
        q,
        &mut out,
        &mut numbers,
    ))?;
    out.truncate(numbers[5]);
    let pool = read(&out)?;
    let same = pool.nodes().starts_with(search.pool.nodes())
        && pool.expressions().starts_with(search.pool.expressions());
    if !same {
        return Err(Stop::Wrong("the pool is not the one that was lent\n".to_string()));
    }
    Ok(Extended { frames: out, pool, numbers })
}

/// Frames, each behind its length, as a pool.
fn read(mut frames: &[u8]) -> Result<Pool, String> {
    let mut text = String::new();
    while let [high, low, rest @ ..] = frames {
        let size = usize::from(u16::from_be_bytes([*high, *low]));
        let (frame, behind) = rest.split_at(size.min(rest.len()));
        text += &hex::encode(frame);
        text += "\n";
        frames = behind;
    }
    let script = Script::from_frames(&text).map_err(|fault| format!("{}\n", fault))?;
    Ok(script.pool)
}

fn plain(expression: usize) -> Request {
    Request { expression: expression as u16, prime: false, muladd: false, asked: None }
}

/// One piece after the other.
fn in_pieces(constraint: &Constraint) -> Result<Made, Stop> {
    let own = pool_frames(&constraint.search.pool);
    let mut first = Lent::after(&constraint.first, &own)?;
    let mut second = Lent::after(&constraint.second, &own)?;
    let (found, chosen) = searched::found(&constraint.search)?.map_err(Stop::Refused)?;
    let Found { ref set, q, .. } = found;
    let Extended { frames, pool, numbers } = extended(constraint, &chosen, q)?;
    let (c_exp, expressions) = (numbers[0], pool.expressions().len());

    first.serve(&frames, &set.iter().map(|&e| plain(e)).collect::<Vec<_>>())?;
    let members: Vec<u64> = set.iter().map(|&e| e as u64).collect();
    let Lent { context, list } = &mut second;
    done(library::mark(&members, expressions, context, list))?;
    second.serve(&frames, &[plain(c_exp)])?;
    done(library::close(expressions, &mut second.context, &mut second.list))?;

    let lists = [first.build(&frames)?, second.build(&frames)?];
    Parts { found, numbers, pool, lists, contexts: [first, second] }.made(constraint)
}

/// What the pieces or the one call left.
struct Parts {
    found: Found,
    numbers: [usize; CONSTRAINT_NUMBERS],
    pool: Pool,
    lists: [[Vec<u8>; 3]; 2],
    contexts: [Lent; 2],
}

impl Parts {
    fn made(self, constraint: &Constraint) -> Result<Made, Stop> {
        let Parts { found, numbers, pool, lists: [lists, lists_2ns], contexts: [first, second] } =
            self;
        let [c_exp, n_cm3, n_cm4, first_q, commitments, _] = numbers;
        let before = usize::from(constraint.commitments);
        Ok(Made {
            intermediates: found.set.iter().copied().zip(before..).collect(),
            c_exp,
            nodes: pool.nodes()[constraint.search.pool.nodes().len()..].to_vec(),
            n_cm3,
            n_cm4,
            qs: (first_q..first_q + n_cm4).collect(),
            commitments,
            step3: first.built(lists, &pool)?,
            step42ns: second.built(lists_2ns, &pool)?,
            found,
        })
    }
}

/// Everything that the one call is lent to write into.
#[derive(Clone, PartialEq, Eq)]
struct Rooms {
    contexts: [Lent; 2],
    lists: [[Vec<u8>; 3]; 2],
    out: Vec<u8>,
    chosen: searched::Chosen,
    found: [u64; 2],
    totals: [usize; CONSTRAINT_TOTALS],
}

impl Rooms {
    fn of(contexts: [Lent; 2]) -> Rooms {
        let room = || vec![UNWRITTEN; STEP_SIZE * LIST_ROOM];
        let rooms = || [room(), room(), room()];
        Rooms {
            contexts,
            lists: [rooms(), rooms()],
            out: vec![UNWRITTEN; MAX_FRAMES_SIZE],
            chosen: [u64::MAX; SET_WORDS],
            found: [u64::MAX; 2],
            totals: [usize::MAX; CONSTRAINT_TOTALS],
        }
    }

    fn call(&mut self, constraint: &Constraint) -> u8 {
        let Constraint { n_cm1, n_cm2, commitments, vc, ref search, .. } = *constraint;
        let [one, two] = &mut self.contexts;
        let [[first, i, last], [first_2ns, i_2ns, last_2ns]] = &mut self.lists;
        library::constraint(
            &pool_frames(&search.pool),
            &searched::identities(search),
            vc,
            search.n_bits.into(),
            search.n_bits_ext.into(),
            search.limit,
            n_cm1.into(),
            n_cm2.into(),
            commitments.into(),
            &mut one.context,
            &mut one.list,
            first,
            i,
            last,
            &mut two.context,
            &mut two.list,
            first_2ns,
            i_2ns,
            last_2ns,
            &mut self.out,
            &mut self.chosen,
            &mut self.found,
            &mut self.totals,
        )
    }
}

/// All of it in one call; what it does not tell is counted from what it does.
fn in_one_call(constraint: &Constraint) -> Result<Made, Stop> {
    let own = pool_frames(&constraint.search.pool);
    let contexts = [Lent::after(&constraint.first, &own)?, Lent::after(&constraint.second, &own)?];
    let before = Rooms::of(contexts);
    let mut rooms = before.clone();
    let number = rooms.call(constraint);
    if number != 0 && rooms != before {
        return Err(Stop::Wrong(format!(
            "refused with {}, and what was lent has changed\n",
            number
        )));
    }
    done(number)?;
    let Rooms { contexts, mut lists, out, chosen, found: [q, visits], totals } = rooms;
    let (steps, size) = (&totals[..6], totals[6]);
    for (list, &count) in lists.iter_mut().flatten().zip(steps) {
        if list[STEP_SIZE * count..].iter().any(|&byte| byte != UNWRITTEN) {
            return Err(Stop::Wrong("something stands behind a list\n".to_string()));
        }
        list.truncate(STEP_SIZE * count);
    }
    let pool = read(&out[..size])?;
    let found = Found { set: searched::members(&chosen), q: q as usize, visits };
    let first_q = usize::from(constraint.commitments) + found.set.len();
    let n_cm3 = first_q - usize::from(constraint.n_cm1) - usize::from(constraint.n_cm2);
    let c_exp = constraint.search.pool.expressions().len();
    let numbers = [c_exp, n_cm3, found.q, first_q, first_q + found.q, size];
    Parts { found, numbers, pool, lists, contexts }.made(constraint)
}

fn say(question: &Question) -> Said {
    let constraint = match question {
        Question::Constraint(constraint) => constraint,
        Question::Search(_) => return Ok(None),
    };
    let pieces = told(in_pieces(constraint))?;
    let one_call = told(in_one_call(constraint))?;
    if pieces != one_call {
        return Err("the one call answers otherwise than the pieces\n".to_string());
    }
    Ok(one_call)
}

fn told(made: Result<Made, Stop>) -> Said {
    match made {
        Ok(made) => Ok(Some(Answer::Given(Given::Made(Box::new(made))))),
        Err(Stop::Refused(number)) => Ok(Some(Answer::Refused(number))),
        Err(Stop::Wrong(text)) => Err(text),
    }
}

/// Random constraints, with contexts that have served requests before.
pub fn questions(seed: u64, index: u64) -> Questions {
    let constraint = searches::random::constraint(seed, index);
    Ok(vec![Labelled::new("constraint", Question::Constraint(constraint))])
}

/// Compares so many random constraints with the original, up to the first difference.
pub fn compare(seed: u64, count: u64) -> Result<(Tally, Option<String>), String> {
    searches::tally::compare(seed, count, questions, say)
}
