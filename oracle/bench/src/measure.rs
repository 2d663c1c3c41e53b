//! Two sides of a comparison measured in turn, and their medians.

use std::time::{Duration, Instant};

/// Does something once, and says how long it took.
pub type Work = Box<dyn FnMut() -> Duration>;

/// Something to be measured, made when it is wanted: its input may be large.
pub struct Case {
    /// A short name for the command line.
    pub key: String,
    pub pair: Box<dyn Fn() -> Pair>,
}

impl Case {
    pub fn new(key: &str, pair: impl Fn() -> Pair + 'static) -> Case {
        Case { key: key.to_string(), pair: Box::new(pair) }
    }
}

/// The port and the original on the same input.
pub struct Pair {
    pub title: String,
    pub port: Work,
    pub original: Work,
    /// What it is asked to be faster by, if it is.
    pub aim: Option<f64>,
    /// What it has many of, and how many.
    pub units: (u64, &'static str),
}

#[derive(Clone, Copy, Debug)]
pub struct Medians {
    pub port: Duration,
    pub original: Duration,
}

impl Medians {
    pub fn ratio(&self) -> f64 {
        self.original.as_secs_f64() / self.port.as_secs_f64()
    }
}

/// Samples of each side: at least and at the most, and seconds after which the least suffice.
const LEAST: usize = 5;
const MOST: usize = 201;
const ENOUGH: Duration = Duration::from_secs(3);

fn median(mut samples: Vec<Duration>) -> Duration {
    samples.sort();
    samples[samples.len() / 2]
}

/// Port, original, port, original and so on, after one of each that does not count.
pub fn medians(pair: &mut Pair) -> Medians {
    (pair.port)();
    (pair.original)();
    let begin = Instant::now();
    let (mut ports, mut originals) = (Vec::new(), Vec::new());
    while ports.len() < LEAST || ports.len() < MOST && begin.elapsed() < ENOUGH {
        ports.push((pair.port)());
        originals.push((pair.original)());
    }
    Medians { port: median(ports), original: median(originals) }
}

/// A time in the unit that it reads best in.
pub fn shown(time: Duration) -> String {
    let seconds = time.as_secs_f64();
    match seconds {
        s if s >= 1.0 => format!("{:.2} s", s),
        s if s >= 1e-3 => format!("{:.2} ms", s * 1e3),
        s => format!("{:.1} us", s * 1e6),
    }
}

/// A ratio with as many digits as tell something.
fn ratio_shown(ratio: f64) -> String {
    match ratio {
        r if r >= 100.0 => format!("{:.0}", r),
        r if r >= 0.1 => format!("{:.1}", r),
        r => format!("{:.3}", r),
    }
}

/// Prints a row for each case, measured as it comes.
pub fn print(cases: &[Case]) {
    println!("| What | Original | Port | Times as fast | Aim | Per unit, original | port |");
    println!("|---|---|---|---|---|---|---|");
    for case in cases {
        let mut pair = (case.pair)();
        let medians = medians(&mut pair);
        let (count, unit) = pair.units;
        let per = |time: Duration| 1e9 * time.as_secs_f64() / count as f64;
        println!(
            "| {} | {} | {} | {} | {} | {:.1} ns a {} | {:.1} ns |",
            pair.title,
            shown(medians.original),
            shown(medians.port),
            ratio_shown(medians.ratio()),
            pair.aim.map_or(String::new(), |aim| aim.to_string()),
            per(medians.original),
            unit,
            per(medians.port),
        );
    }
}

#[cfg(test)]
mod tests {
    use super::*;

    #[test]
    fn the_median_is_in_the_middle() {
        let samples = [9, 1, 3].map(Duration::from_millis);
        assert_eq!(median(samples.to_vec()), Duration::from_millis(3));
    }

    #[test]
    fn times_have_their_unit() {
        assert_eq!(shown(Duration::from_millis(2320)), "2.32 s");
        assert_eq!(shown(Duration::from_micros(6090)), "6.09 ms");
        assert_eq!(shown(Duration::from_nanos(877_400)), "877.4 us");
        assert_eq!([2961.2, 7.8, 0.0052].map(ratio_shown), ["2961", "7.8", "0.005"]);
    }

    #[test]
    fn sides_take_turns() {
        use std::cell::RefCell;
        use std::rc::Rc;
        let order = Rc::new(RefCell::new(String::new()));
        let side = |letter: char| -> Work {
            let order = Rc::clone(&order);
            Box::new(move || {
                order.borrow_mut().push(letter);
                Duration::from_secs(1)
            })
        };
        let (port, original) = (side('p'), side('o'));
        let title = String::new();
        let mut pair = Pair { title, port, original, aim: None, units: (1, "unit") };
        assert_eq!(medians(&mut pair).ratio(), 1.0);
        assert!(order.borrow().starts_with("popopo"));
    }
}
