//! The original's `map`, on a pool and a plan.

use crate::dimensions;
use crate::input::Input;
use crate::mapped::Mapped;
use crate::plan::{Plan, Ratio};
use asked::question::Refused;
use judge::pool::Pool;
use judge::refusals::NO_DIMENSION;
use judge::run::{pil, text_of};
use original::starkinfo::{Program, StarkInfo, PCCTX};
use original::types::{StarkStruct, PIL};
use std::panic::{self, AssertUnwindSafe};

/// The original's word where it panics.
#[derive(Clone, Debug, PartialEq, Eq)]
pub struct Panic(pub String);

/// What a call of the original that may panic gives.
pub fn caught<T>(call: impl FnOnce() -> T) -> Result<T, Panic> {
    panic::catch_unwind(AssertUnwindSafe(call)).map_err(|payload| Panic(text_of(payload)))
}

/// What the original holds after `map`, which need not have come to its end.
pub struct After {
    pub info: StarkInfo,
    pub pil: PIL,
    pub program: Program,
    pub end: Result<(), Panic>,
}

/// What the original holds before `map`.
pub struct Before {
    info: StarkInfo,
    pil: PIL,
    rows: StarkStruct,
}

impl Before {
    pub fn new(pool: &Pool, plan: &Plan) -> Before {
        let rows = StarkStruct {
            nBits: usize::from(plan.n_bits),
            nBitsExt: usize::from(plan.n_bits_ext),
            ..StarkStruct::default()
        };
        let pil = PIL { q2exp: q2exp(plan), ..pil(pool) };
        Before { info: stark_info(plan), pil, rows }
    }

    /// Runs `map`. Call it on a large stack.
    pub fn map(self, mut program: Program) -> After {
        let Before { mut info, mut pil, rows } = self;
        let end = caught(|| info.map(&mut pil, &rows, &mut program))
            .and_then(|done| done.map_err(|error| Panic(error.to_string())));
        After { info, pil, program, end }
    }
}

/// Runs `map`. Call it on a large stack.
pub fn run_map(pool: &Pool, plan: &Plan, program: Program) -> After {
    Before::new(pool, plan).map(program)
}

fn q2exp(plan: &Plan) -> Vec<usize> {
    plan.q2exp.iter().map(|&expression| expression.into()).collect()
}

fn stark_info(plan: &Plan) -> StarkInfo {
    let [n_cm1, n_cm2, n_cm3, n_cm4] = plan.n_cm.map(usize::from);
    let pairs = || plan.intermediates.iter().map(|i| (i.expression.into(), i.cm.into()));
    let product = |ratio: &Ratio| PCCTX {
        num_id: ratio.num.into(),
        den_id: ratio.den.into(),
        ..PCCTX::default()
    };
    let lookups = plan.pu.iter().map(|pu| PCCTX {
        f_exp_id: pu.f.into(),
        t_exp_id: pu.t.into(),
        ..product(&pu.ratio)
    });
    StarkInfo {
        n_cm1,
        n_cm2,
        n_cm3,
        n_cm4,
        pu_ctx: lookups.collect(),
        pe_ctx: plan.pe.iter().map(product).collect(),
        ci_ctx: plan.ci.iter().map(product).collect(),
        c_exp: plan.c_exp.into(),
        q_deg: plan.q_deg.into(),
        im_exps: pairs().map(|(expression, _): (usize, usize)| (expression, true)).collect(),
        im_exps_list: pairs().map(|(expression, _): (usize, usize)| expression).collect(),
        im_exp2cm: pairs().collect(),
        qs: plan.qs.iter().map(|&number| number.into()).collect(),
        ..StarkInfo::default()
    }
}

/// What the original gives for a pool and a plan, with no lists.
pub fn ask_map(pool: &Pool, plan: &Plan) -> Result<Mapped, Panic> {
    let after = run_map(pool, plan, Program::default());
    after.end?;
    Mapped::of(&after.info, &after.pil, (plan.n_bits, plan.n_bits_ext)).map_err(Panic)
}

/// `get_exp_dim` of every expression, where columns have the dimensions that `map` left.
pub fn ask_exp_dims(pool: &Pool, plan: &Plan, mapped: &Mapped) -> Result<Vec<usize>, Panic> {
    let pil = PIL { cm_dims: mapped.cm_dims.clone(), q2exp: q2exp(plan), ..pil(pool) };
    let of = |expression| caught(|| StarkInfo::get_exp_dim(&pil, expression));
    pil.expressions.iter().map(of).collect()
}

/// The numbered answer of document 01: refusals by its rules, and the original's word where they
/// accept. The two must not contradict each other.
pub fn expected(input: &Input) -> Result<(Pool, Plan, Mapped), Refused> {
    let (pool, plan) = input.admitted().map_err(Refused::With)?;
    let refused = dimensions::some_record_has_none(&pool, &plan);
    let mapped = ask_map(&pool, &plan)
        .map_err(|Panic(text)| Refused::Not(format!("the original panics: {}", text)))?;
    let has_none = mapped.records.iter().any(|record| record.dimension == 0);
    match (refused, has_none) {
        (false, false) => Ok((pool, plan, mapped)),
        (true, true) => Err(Refused::With(NO_DIMENSION)),
        _ => Err(Refused::Not("the original's dimensions are not as foreseen".to_string())),
    }
}
