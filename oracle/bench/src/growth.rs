//! The same at growing sizes: time per node.

use crate::measure::{medians, Case, Medians, Pair};
use crate::{evaluating, generation, planning};
use judge::pool::MAX_NODES;

/// Nodes at the least; each size is twice the one before.
const LEAST_NODES: usize = 256;

/// What is measured at each size.
pub struct Series {
    key: &'static str,
    pub title: &'static str,
    pair: fn(usize) -> Pair,
    pub points: Vec<Point>,
}

#[derive(Clone, Copy)]
pub struct Point {
    pub nodes: usize,
    medians: Medians,
}

impl Point {
    fn per_node(&self, seconds: f64) -> f64 {
        1e9 * seconds / self.nodes as f64
    }

    /// Nanoseconds a node.
    pub fn port(&self) -> f64 {
        self.per_node(self.medians.port.as_secs_f64())
    }

    pub fn original(&self) -> f64 {
        self.per_node(self.medians.original.as_secs_f64())
    }
}

fn sizes() -> impl Iterator<Item = usize> {
    std::iter::successors(Some(LEAST_NODES), |nodes| Some(2 * nodes))
        .take_while(|&nodes| nodes <= MAX_NODES)
}

impl Series {
    fn new(key: &'static str, title: &'static str, pair: fn(usize) -> Pair) -> Series {
        Series { key, title, pair, points: Vec::new() }
    }

    fn case(&self, nodes: usize) -> Case {
        let pair = self.pair;
        Case::new(&format!("{}-{}", self.key, nodes), move || pair(nodes))
    }

    fn measured(mut self) -> Series {
        let point = |nodes| Point { nodes, medians: medians(&mut (self.pair)(nodes)) };
        self.points = sizes().map(point).collect();
        self
    }

    /// The port's slowest node to its fastest.
    fn spread(&self) -> f64 {
        let each = || self.points.iter().map(Point::port);
        each().fold(0.0, f64::max) / each().fold(f64::INFINITY, f64::min)
    }
}

/// Everything at every size.
pub fn cases() -> Vec<Case> {
    series().iter().flat_map(|one| sizes().map(|nodes| one.case(nodes))).collect()
}

fn series() -> Vec<Series> {
    vec![
        Series::new("regular", "whole run", generation::grown),
        Series::new("chain", "chain, both ways", generation::grown_chain),
        Series::new("map", "map, a record a node", |nodes| planning::mapped(nodes, nodes)),
        Series::new("walks", "fixing and dimensions", planning::walked),
        Series::new("evaluate", "evaluation", evaluating::evaluated),
    ]
}

pub fn measured() -> Vec<Series> {
    series().into_iter().map(Series::measured).collect()
}

/// Prints nanoseconds a node, the port's and behind it the original's.
pub fn print(series: &[Series]) {
    print!("| ns a node: port (other) |");
    sizes().for_each(|nodes| print!(" {} nodes |", nodes));
    println!(" slowest to fastest |");
    println!("|---|{}---|", "---|".repeat(sizes().count()));
    for one in series {
        print!("| {} |", one.title);
        one.points.iter().for_each(|p| print!(" {:.0} ({:.0}) |", p.port(), p.original()));
        println!(" {:.2} |", one.spread());
    }
}
