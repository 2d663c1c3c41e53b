//! What is lent to each exported function where all is well, at random.

use crate::evaluation::Given;
use crate::export::{Export, Lent};
use crate::planned;
use crate::record::{framed, pool_frames};
use crate::searched;
use crate::sectioned;
use enonkasse_sys::{
    self as library, CELL_SIZE, CONSTRAINT_NUMBERS, CONSTRAINT_TOTALS, CONTEXT_SIZE, MAP_ROOM,
    SET_WORDS, STEP_COUNT_AT, STEP_SIZE,
};
use judge::pool::Pool;
use judge::random::{self, Random};
use judge::script::Request;
use plans::question::Question as PlanQuestion;
use searches::question::Question as SearchQuestion;
use searches::search::Search;

/// Steps that a list has room for.
const ROOM: usize = 64;

/// One context of so many has been built.
const BUILT_EVERY: usize = 4;

/// Inputs of a run that are looked at for one with a walk over a list, and how many at the most.
const INPUTS: u64 = 8;
const TRIES: u64 = 200;

/// The most visits of a search.
const VISITS: u64 = 20_000;

/// Bytes that the frames of the pool with a constraint may have more.
const FRAMES_ROOM: usize = 600;

/// What the walks and the search are lent at first.
const COUNT: usize = 7;
const WORD: u64 = 7;

/// Everything that the exported functions are lent in a run.
pub struct Good {
    session: Session,
    walk: planned::Lent,
    search: Search,
    /// As many bytes as the answer of map has.
    map_room: Vec<u8>,
    domain: u8,
    dim_x: u16,
    sections: sectioned::Lent,
}

/// A pool with a context that has served some of its requests.
struct Session {
    pool: Pool,
    requests: Vec<Request>,
    context: Vec<u8>,
    list: Vec<u8>,
    values: Vec<u64>,
}

impl Good {
    /// That of a seed and index. Call it on a large stack.
    pub fn of(seed: u64, index: u64) -> Result<Good, String> {
        let mut random = Random::new(seed, index);
        let session = Session::of(&mut random, seed, index);
        let walk = walk(&mut random, seed, index)?;
        Ok(Good {
            session,
            map_room: map_room(&walk),
            walk,
            search: search(seed, index)?,
            domain: random.below(2) as u8,
            dim_x: random.pick(&[1, 3]),
            sections: sectioned::Lent::random(seed, index)?,
        })
    }

    pub fn lent_to(&self, export: Export) -> Lent {
        let planned::Lent { frames, plan, counter, lists: [first, i, last] } = &self.walk;
        let segment: [&[u8]; 5] = [frames, plan, first, i, last];
        match export {
            Export::Fresh => Lent::of_bytes(&[&self.session.context]),
            Export::Serve => self.session.serve(),
            Export::Build => self.session.build(),
            Export::Run => self.session.run(),
            Export::Evaluate => self.session.evaluate(),
            Export::Map => {
                Lent { counts: vec![COUNT], ..Lent::of_bytes(&[frames, plan, &self.map_room]) }
            }
            Export::Fix => Lent {
                numbers: vec![self.domain.into()],
                counts: counter.to_vec(),
                ..Lent::of_bytes(&segment)
            },
            Export::Query => Lent::of_bytes(&segment),
            Export::Dimension => {
                Lent { numbers: vec![self.dim_x.into()], ..Lent::of_bytes(&segment) }
            }
            Export::DimensionFirst => Lent::of_bytes(&segment[..3]),
            Export::Search => self.lent_to_search(),
            Export::Mark => self.session.mark(),
            Export::Close => self.session.close(),
            Export::ConstraintPool => self.lent_to_constraint_pool(),
            Export::Constraint => self.lent_to_constraint(),
            Export::MapSection => self.lent_to_map_section(),
        }
    }

    fn lent_to_search(&self) -> Lent {
        let Search { pool, identities, n_bits, n_bits_ext, limit } = &self.search;
        let identities = identities.iter().map(|&e| e.into()).collect();
        Lent {
            numbers: vec![(*n_bits).into(), (*n_bits_ext).into(), (*limit).min(VISITS)],
            words: vec![identities, vec![WORD; SET_WORDS], vec![WORD; 2]],
            ..Lent::of_bytes(&[&pool_frames(pool)])
        }
    }
}

impl Good {
    fn lent_to_map_section(&self) -> Lent {
        let sectioned::Lent { records, columns, widths } = self.sections.clone();
        Lent { records, columns: columns.into_iter().chain([widths]).collect(), ..Lent::default() }
    }

    /// With what the search chose, if it did.
    fn lent_to_constraint_pool(&self) -> Lent {
        let Search { pool, identities, n_bits, n_bits_ext, limit } = &self.search;
        let (frames, mut chosen, mut found) = (pool_frames(pool), [0; SET_WORDS], [0; 2]);
        let identities: Vec<u64> = identities.iter().map(|&e| e.into()).collect();
        let (bits, limit) = ((*n_bits).into(), (*limit).min(VISITS));
        library::search(
            &frames,
            &identities,
            bits,
            (*n_bits_ext).into(),
            limit,
            &mut chosen,
            &mut found,
        );
        let out = vec![0; frames.len() + FRAMES_ROOM];
        Lent {
            numbers: vec![self.dim_x.into(), 1, 2, 5, found[0]],
            words: vec![identities, chosen.to_vec()],
            counts: vec![COUNT; CONSTRAINT_NUMBERS],
            ..Lent::of_bytes(&[&frames, &out])
        }
    }

    /// On two fresh contexts, with little room.
    fn lent_to_constraint(&self) -> Lent {
        let Lent { numbers, bytes, mut words, .. } = self.lent_to_search();
        // A search is lent frames alone.
        let frames = &bytes[0];
        let (mut context, list) = (vec![0; CONTEXT_SIZE], vec![0; STEP_SIZE * ROOM]);
        library::fresh(&mut context);
        let out = vec![0; frames.len() + FRAMES_ROOM];
        let lent: [&[u8]; 5] = [&context, &list, &list, &list, &list];
        let parts: Vec<&[u8]> =
            [&frames[..]].into_iter().chain(lent).chain(lent).chain([&out[..]]).collect();
        words[1] = vec![WORD; SET_WORDS];
        let asked = [&[self.dim_x.into()], &numbers[..], &[1, 2, 5]].concat();
        Lent {
            numbers: asked,
            words,
            counts: vec![COUNT; CONSTRAINT_TOTALS],
            ..Lent::of_bytes(&parts)
        }
    }
}

impl Session {
    /// Half of the requests that come first are served; in one session of four they are built, too.
    fn of(random: &mut Random, seed: u64, index: u64) -> Session {
        let script = random::case(seed, index, None).question;
        let requests: Vec<Request> = script.requests().copied().collect();
        let mut session = Session {
            requests: Vec::new(),
            context: vec![0; CONTEXT_SIZE],
            list: vec![0; STEP_SIZE * ROOM],
            values: Given::random(&script.pool, random).words(),
            pool: script.pool,
        };
        library::fresh(&mut session.context);
        let (served, left) = requests.split_at(requests.len() / 2);
        let frames = session.frames(served);
        // A refusal leaves the fresh context, which is good too.
        library::serve(&frames, 0, 0, &mut session.context, &mut session.list);
        session.requests = left.to_vec();
        if random.one_of(BUILT_EVERY) {
            session.forget_blocks();
        }
        session
    }

    fn forget_blocks(&mut self) {
        let (room, frames) = (vec![0; self.list.len()], pool_frames(&self.pool));
        let [mut first, mut i, mut last] = [room.clone(), room.clone(), room];
        let Session { context, list, .. } = self;
        library::build(&frames, context, list, &mut first, &mut i, &mut last, &mut [0; 3]);
    }

    fn frames(&self, requests: &[Request]) -> Vec<u8> {
        let mut frames = pool_frames(&self.pool);
        frames.extend(framed(requests.iter().map(Request::frame)));
        frames
    }

    fn serve(&self) -> Lent {
        let asked = self.requests.last().and_then(|request| request.asked);
        let (kind, id) = asked.map_or((0, 0), |asked| (asked.kind.byte().into(), asked.id.into()));
        let parts: [&[u8]; 3] = [&self.frames(&self.requests), &self.context, &self.list];
        Lent { numbers: vec![kind, id], ..Lent::of_bytes(&parts) }
    }

    fn build(&self) -> Lent {
        let room = vec![0; STEP_SIZE * self.step_count()];
        let parts: [&[u8]; 6] =
            [&pool_frames(&self.pool), &self.context, &self.list, &room, &room, &room];
        Lent { counts: vec![COUNT; 3], ..Lent::of_bytes(&parts) }
    }

    fn run(&self) -> Lent {
        let parts: [&[u8]; 2] = [&self.frames(&self.requests), &self.list];
        Lent { counts: vec![COUNT; 2], ..Lent::of_bytes(&parts) }
    }

    /// The first expression and the last, where there are any.
    fn mark(&self) -> Lent {
        let count = self.pool.expressions().len() as u64;
        let members = if count == 0 { Vec::new() } else { vec![0, count - 1] };
        let parts: [&[u8]; 2] = [&self.context, &self.list];
        Lent { numbers: vec![count], words: vec![members], ..Lent::of_bytes(&parts) }
    }

    fn close(&self) -> Lent {
        let parts: [&[u8]; 2] = [&self.context, &self.list];
        let count = self.pool.expressions().len() as u64;
        Lent { numbers: vec![count], ..Lent::of_bytes(&parts) }
    }

    fn evaluate(&self) -> Lent {
        let list = &self.list[..STEP_SIZE * self.step_count()];
        let out = vec![0; CELL_SIZE * self.step_count()];
        Lent {
            numbers: vec![u32::MAX.into()],
            words: vec![self.values.clone()],
            counts: vec![COUNT],
            ..Lent::of_bytes(&[&pool_frames(&self.pool), list, &out])
        }
    }

    fn step_count(&self) -> usize {
        crate::record::u16_at(&self.context, STEP_COUNT_AT)
    }
}

/// What some walk over lists is lent.
fn walk(random: &mut Random, seed: u64, index: u64) -> Result<planned::Lent, String> {
    for attempt in 0..TRIES {
        let questions = planned::questions(seed, INPUTS * index + attempt)?;
        let sent = questions.into_iter().filter_map(|labelled| match labelled.question {
            PlanQuestion::Walk(input, _, segment) if !segment.first.is_empty() => {
                Some(planned::Sent::new(&input, &segment).lent)
            }
            _ => None,
        });
        let mut sent: Vec<_> = sent.collect();
        if !sent.is_empty() {
            return Ok(random.take(&mut sent));
        }
    }
    Err(format!("no list among {} plans of seed {}", TRIES, seed))
}

fn map_room(lent: &planned::Lent) -> Vec<u8> {
    let (mut room, mut size) = (vec![0; MAP_ROOM], [0]);
    library::map(&lent.frames, &lent.plan, &mut room, &mut size);
    room.truncate(size[0]);
    room
}

fn search(seed: u64, index: u64) -> Result<Search, String> {
    match searched::questions(seed, index)?.swap_remove(0).question {
        SearchQuestion::Search(search) => Ok(search),
        SearchQuestion::Constraint(_) => Err("a search comes first".to_string()),
    }
}
