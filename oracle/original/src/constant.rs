//! Shim: the challenges by name. Only `get` is asked for. The number of "vc" is an input of the
//! search, so a thread may set its own.

use std::cell::Cell;

pub static CHALLENGE_MAP: ChallengeMap = ChallengeMap;

pub struct ChallengeMap;

static U: usize = 0;
static DEF_VAL: usize = 1;
static VC: usize = 4;

thread_local! {
    static CHOSEN_VC: Cell<&'static usize> = Cell::new(&VC);
}

impl ChallengeMap {
    pub fn get(&self, name: &&str) -> Option<&usize> {
        match *name {
            "u" => Some(&U),
            "defVal" => Some(&DEF_VAL),
            "vc" => Some(CHOSEN_VC.with(Cell::get)),
            _ => None,
        }
    }
}

/// Sets the number of "vc" for this thread. `get` lends a reference to it, so it is never freed.
pub fn set_vc(number: usize) {
    CHOSEN_VC.with(|vc| vc.set(Box::leak(Box::new(number))));
}
