//! Runs a script on the original and says what it did, in document 01's words.

use crate::answer::{Answer, Block, State, StepBytes};
use crate::kinds::{Kind, Refusal};
use crate::pool::{self, Flags, Pool};
use crate::script::{Command, Request, Script};
use original::starkinfo_codegen::{build_code, pil_code_gen, Code, Context, Section};
use original::types::{Expression, PIL};
use std::any::Any;
use std::collections::HashMap;
use std::panic::{self, AssertUnwindSafe};
use std::sync::Once;
use std::thread;

/// The original walks and drops trees by recursion: a chain of 4,096 nodes overflows 2 MiB.
const STACK: usize = 256 << 20;

/// Panics on a thread of this name are the original's and an answer, not an accident to print.
const THREAD: &str = "original";

/// The original's names for the two kinds of mark.
const PLAIN_MARK: &str = "exps";
const PRIMED_MARK: &str = "expsPrime";

/// Answers the commands in a fresh context, to the first refusal or to the end. Fails where the
/// original did what document 01 has no word for.
pub fn run(script: &Script) -> Result<Vec<Answer>, String> {
    on_large_stack(|| Original::new(&script.pool).answer_all(&script.commands))
}

/// Runs work that calls the original: on a stack that its recursion fits, its panics unprinted.
pub fn on_large_stack<T: Send>(
    work: impl FnOnce() -> Result<T, String> + Send,
) -> Result<T, String> {
    silence_the_original();
    thread::scope(|scope| {
        thread::Builder::new()
            .name(THREAD.to_string())
            .stack_size(STACK)
            .spawn_scoped(scope, work)
            .map_err(|error| format!("cannot start a thread: {}", error))?
            .join()
            .unwrap_or_else(|payload| Err(format!("unexpected panic: {}", text_of(payload))))
    })
}

fn silence_the_original() {
    static ONCE: Once = Once::new();
    ONCE.call_once(|| {
        let others = panic::take_hook();
        panic::set_hook(Box::new(move |info| {
            if thread::current().name() != Some(THREAD) {
                others(info);
            }
        }));
    });
}

/// What a caught panic says.
pub fn text_of(payload: Box<dyn Any + Send>) -> String {
    match payload.downcast::<String>() {
        Ok(text) => *text,
        Err(payload) => match payload.downcast::<&str>() {
            Ok(text) => text.to_string(),
            Err(_) => "a panic without text".to_string(),
        },
    }
}

/// The original's context, and the pool as the original holds it.
pub struct Original {
    context: Context,
    pil: PIL,
}

/// A context set aside, to go back to after a refusal.
pub struct Saved(Context);

/// How a call of `pil_code_gen` ended.
#[derive(Debug)]
enum Outcome {
    Done,
    Error(String),
    Panic(String),
}

impl Original {
    pub fn new(pool: &Pool) -> Original {
        let context =
            Context { exp_id: 0, tmp_used: 0, code: Vec::new(), calculated: HashMap::new() };
        Original { context, pil: pil(pool) }
    }

    fn answer_all(&mut self, commands: &[Command]) -> Result<Vec<Answer>, String> {
        let mut answers = Vec::new();
        for command in commands {
            let answer = match command {
                Command::Request(request) => self.request(request),
                Command::Build => self.build(),
            };
            answers.push(answer.map_err(|text| format!("at `{}`: {}", command, text))?);
            if answers.last().map_or(false, Answer::is_refusal) {
                break;
            }
        }
        Ok(answers)
    }

    pub fn request(&mut self, request: &Request) -> Result<Answer, String> {
        let foreseen = self.foresee(request);
        let outcome = self.generate(request);
        Ok(match refusal(foreseen, &outcome)? {
            Some(refusal) => Answer::Refused(refusal),
            None => Answer::Accepted { state: self.state(), blocks: self.blocks() },
        })
    }

    /// The refusals that the original meets as bare panics of the language; whether it will is
    /// seen in the context beforehand.
    fn foresee(&self, request: &Request) -> Option<Refusal> {
        let expression = usize::from(request.expression);
        let marked = self.is_marked(expression, request.prime);
        let is_its_block =
            |block: &Code| block.exp_id == expression && block.prime == request.prime;
        if marked && request.asked.is_some() && !self.context.code.iter().any(is_its_block) {
            Some(Refusal::NoBlock)
        } else if !marked && expression >= self.pil.expressions.len() {
            Some(Refusal::NoSuchExpression)
        } else {
            None
        }
    }

    fn generate(&mut self, request: &Request) -> Outcome {
        let (res_type, res_id) = match request.asked {
            Some(asked) => (asked.kind.word(), usize::from(asked.id)),
            None => ("", 0),
        };
        let Original { context, pil } = self;
        let call = AssertUnwindSafe(|| {
            let expression = usize::from(request.expression);
            pil_code_gen(context, pil, expression, request.prime, res_type, res_id, request.muladd)
        });
        match panic::catch_unwind(call) {
            Ok(Ok(())) => Outcome::Done,
            Ok(Err(error)) => Outcome::Error(error.to_string()),
            Err(payload) => Outcome::Panic(text_of(payload)),
        }
    }

    pub fn build(&mut self) -> Result<Answer, String> {
        let segment = build_code(&mut self.context, &self.pil);
        if segment.tmp_used != self.context.tmp_used || !self.context.code.is_empty() {
            return Err("the original's build left blocks, or moved its counter".to_string());
        }
        Ok(Answer::Built {
            first: encode(&segment.first)?,
            i: encode(&segment.i)?,
            last: encode(&segment.last)?,
            state: self.state(),
        })
    }

    pub fn state(&self) -> State {
        let marks =
            |prime| (0..self.pil.expressions.len()).map(|e| self.is_marked(e, prime)).collect();
        State { counter: self.context.tmp_used, plain: marks(false), primed: marks(true) }
    }

    pub fn blocks(&self) -> Vec<Block> {
        let block = |b: &Code| Block { expression: b.exp_id, prime: b.prime, steps: b.code.len() };
        self.context.code.iter().map(block).collect()
    }

    /// The steps of all blocks, in order.
    pub fn steps(&self) -> Result<Vec<StepBytes>, String> {
        self.context.code.iter().flat_map(|block| &block.code).map(StepBytes::of).collect()
    }

    pub fn saved(&self) -> Saved {
        let Context { exp_id, tmp_used, ref code, ref calculated } = self.context;
        let code = code.iter().map(|b| Code { code: b.code.clone(), ..*b }).collect();
        Saved(Context { exp_id, tmp_used, code, calculated: calculated.clone() })
    }

    pub fn restore(&mut self, saved: Saved) {
        self.context = saved.0;
    }

    fn is_marked(&self, expression: usize, prime: bool) -> bool {
        let mark = if prime { PRIMED_MARK } else { PLAIN_MARK };
        self.context.calculated.contains_key(&(mark, expression))
    }
}

fn encode(list: &[Section]) -> Result<Vec<StepBytes>, String> {
    list.iter().map(StepBytes::of).collect()
}

/// What a call's end means. What was foreseen must have come, and nothing unforeseen may have.
fn refusal(foreseen: Option<Refusal>, outcome: &Outcome) -> Result<Option<Refusal>, String> {
    match (foreseen, outcome) {
        (None, Outcome::Done) => Ok(None),
        // The original has three spellings of it.
        (None, Outcome::Error(text)) if text.eq_ignore_ascii_case("double prime") => {
            Ok(Some(Refusal::DoublePrime))
        }
        (None, Outcome::Panic(text)) if text == "Prime in retType" => {
            Ok(Some(Refusal::PrimedResult))
        }
        (Some(Refusal::NoSuchExpression), Outcome::Panic(text))
            if text.starts_with("index out of bounds") =>
        {
            Ok(foreseen)
        }
        (Some(Refusal::NoBlock), Outcome::Panic(text))
            if text.starts_with("called `Option::unwrap()` on a `None` value") =>
        {
            Ok(foreseen)
        }
        _ => Err(format!("the original ended with {:?}; foreseen was {:?}", outcome, foreseen)),
    }
}

/// The pool as the original holds it: a tree for each expression.
pub fn pil(pool: &Pool) -> PIL {
    PIL {
        nCommitments: 0,
        nQ: 0,
        nIm: 0,
        nConstants: 0,
        publics: Vec::new(),
        references: HashMap::new(),
        expressions: trees(pool),
        polIdentities: Vec::new(),
        plookupIdentities: Vec::new(),
        permutationIdentities: None,
        connectionIdentities: None,
        cm_dims: Vec::new(),
        q2exp: Vec::new(),
    }
}

fn trees(pool: &Pool) -> Vec<Expression> {
    // In an admitted pool children come first and each node has one use: a tree can be moved
    // into its parent.
    let mut made: Vec<Option<Expression>> = Vec::with_capacity(pool.nodes().len());
    for node in pool.nodes() {
        let children = node.children.iter().map(|&child| take(&mut made, child)).collect();
        made.push(Some(tree(node, children)));
    }
    pool.expressions()
        .iter()
        .map(|expression| flagged(take(&mut made, expression.root), expression.flags))
        .collect()
}

fn take(made: &mut [Option<Expression>], node: u16) -> Expression {
    made[usize::from(node)].take().expect("each node has one use")
}

fn tree(node: &pool::Node, children: Vec<Expression>) -> Expression {
    let id = if node.kind.has_id() { Some(usize::from(node.id)) } else { None };
    let value = match node.kind {
        Kind::NUMBER => node.literal.map(|literal| literal.to_string()),
        _ => None,
    };
    let const_ = match node.kind {
        Kind::ADDC | Kind::MULC => node.literal.and_then(|literal| literal.as_i64()),
        _ => None,
    };
    let values = if node.kind.is_operation() { Some(children) } else { None };
    let next = if node.next { Some(true) } else { None };
    Expression {
        next,
        const_,
        ..Expression::new(node.kind.word().to_string(), 0, id, value, values)
    }
}

fn flagged(tree: Expression, flags: Flags) -> Expression {
    let set = |flag| if flags.has(flag) { Some(true) } else { None };
    Expression {
        keep: set(Flags::KEEP),
        keep2ns: set(Flags::KEEP2NS),
        idQ: if flags.has(Flags::ID_Q) { Some(0) } else { None },
        ..tree
    }
}

#[cfg(test)]
mod tests {
    use super::*;
    use crate::script::numbered;

    fn script(text: &str) -> Script {
        Script::parse(numbered(text)).expect("a good script")
    }

    fn answers(text: &str) -> String {
        run(&script(text)).expect("an answer").iter().map(Answer::to_string).collect()
    }

    /// cm0·cm1 + const0', document 01's pool.
    const RUN: &str = "011000000000\n011000000100\n01030000000200000001\n011101000000\n\
                       01010000000200020003\n02000400\n";

    #[test]
    fn document_01_fused() {
        let answers = answers(&format!("{}0300000001\nbuild", RUN));
        let step = "041200000003100000001000010011000001";
        assert_eq!(
            answers,
            format!(
                "ok\ncounter 0\nmarks 1 0\nblocks 0:0:1\n\
                 first {0}\ni {0}\nlast {0}\ncounter 0\nmarks 1 1\n",
                step
            )
        );
    }

    #[test]
    fn document_01_not_fused() {
        let answers = answers(&format!("{}0300000000\nbuild", RUN));
        let list = |name: &str| {
            format!("{0} 0320000000021000000010000100\n{0} 0112000000022000000011000001\n", name)
        };
        assert_eq!(
            answers,
            format!(
                "ok\ncounter 1\nmarks 1 0\nblocks 0:0:2\n{}{}{}counter 1\nmarks 1 1\n",
                list("first"),
                list("i"),
                list("last")
            )
        );
    }

    #[test]
    fn each_refusal_ends_the_run() {
        assert_eq!(answers(&format!("{}request 1 0 0\nbuild", RUN)), "refused 3\n");
        assert_eq!(answers(&format!("{}request 0 1 0\nbuild", RUN)), "refused 5\n");
        assert_eq!(answers(&format!("{}request 0 1 0 21 0\nbuild", RUN)), "refused 5\n");
        let constant = "011500000000\n02000000\n";
        assert_eq!(answers(&format!("{}request 0 1 0 21 0\nbuild", constant)), "refused 7\n");
        assert_eq!(
            answers(&format!("{}build\nrequest 0 1 0 21 0\nbuild", constant)),
            "counter 0\nmarks 1 1\nrefused 8\n"
        );
    }

    #[test]
    fn an_empty_pool_is_answered() {
        assert_eq!(answers("build\nrequest 0 0 0\n"), "counter 0\nmarks - -\nrefused 3\n");
    }

    #[test]
    fn what_has_no_word_is_a_fault() {
        let panic = |text: &str| Outcome::Panic(text.to_string());
        assert!(refusal(None, &panic("index out of bounds: ..")).is_err());
        assert!(refusal(None, &Outcome::Error("InvalidOperator".to_string())).is_err());
        assert!(refusal(Some(Refusal::NoBlock), &Outcome::Done).is_err());
        assert!(refusal(Some(Refusal::NoBlock), &panic("index out of bounds: ..")).is_err());
    }

    /// G1 of the notes, and why a run ends there: e2' is refused, yet e0' stays.
    #[test]
    fn a_refusal_leaves_work_behind() {
        let script = script(
            "011000000000\n011000000100\n01030000000200000001\n011001000200\n\
             011200000000\n011200000100\n01010000000200040005\n\
             02000200\n02000300\n02000600\nrequest 2 1 0\n",
        );
        let left = on_large_stack(|| {
            let mut original = Original::new(&script.pool);
            let answers = original.answer_all(&script.commands)?;
            assert_eq!(answers, [Answer::Refused(Refusal::DoublePrime)]);
            Ok((original.blocks(), original.state().primed))
        });
        let block = Block { expression: 0, prime: true, steps: 1 };
        assert_eq!(left, Ok((vec![block], vec![true, false, false])));
    }

    /// G15 of the notes: frames cannot say `Some(false)`, so no vector can show it.
    #[test]
    fn a_flag_counts_by_presence() {
        let text = "011000000000\n02000001\nrequest 0 0 0\nrequest 0 1 0\nbuild\nbuild\n";
        let script = script(text);
        let says_false = on_large_stack(|| {
            let mut original = Original::new(&script.pool);
            original.pil.expressions[0].keep = Some(false);
            original.answer_all(&script.commands)
        });
        assert_eq!(says_false, run(&script));
    }

    #[test]
    fn a_chain_of_the_largest_pool_fits_the_stack() {
        let mut text = "011000000000\n".to_string();
        for child in 0..pool::MAX_NODES - 1 {
            text.push_str(&format!("010700000001{:04x}\n", child));
        }
        text.push_str("020fff00\nrequest 0 0 0\n");
        assert_eq!(answers(&text), "ok\ncounter 4094\nmarks 1 0\nblocks 0:0:4095\n");
    }
}
