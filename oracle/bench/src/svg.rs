//! The growth as a picture: nanoseconds a node over nodes, both on logarithmic scales.

use crate::growth::{Point, Series};
use std::fmt::Write;

const WIDTH: f64 = 760.0;
const HEIGHT: f64 = 480.0;
const LEFT: f64 = 80.0;
const RIGHT: f64 = 220.0;
const TOP: f64 = 50.0;
const BOTTOM: f64 = 60.0;

const COLOURS: [&str; 5] = ["#0b5fa5", "#c2410c", "#15803d", "#7e22ce", "#525252"];

/// A logarithmic axis from the low to the high end of the picture.
struct Axis {
    from: f64,
    to: f64,
    low: f64,
    high: f64,
}

impl Axis {
    fn at(&self, value: f64) -> f64 {
        let part = (value / self.from).ln() / (self.to / self.from).ln();
        self.low + part * (self.high - self.low)
    }
}

struct Picture {
    x: Axis,
    y: Axis,
    text: String,
}

impl Picture {
    fn new(series: &[Series]) -> Picture {
        let points = || series.iter().flat_map(|one| &one.points);
        let times = || points().flat_map(|p| [p.port(), p.original()]);
        let nodes = || points().map(|p| p.nodes as f64);
        let least = times().fold(f64::INFINITY, f64::min).log10().floor();
        let most = times().fold(0.0, f64::max).log10().ceil();
        let x = Axis {
            from: nodes().fold(f64::INFINITY, f64::min),
            to: nodes().fold(0.0, f64::max),
            low: LEFT,
            high: WIDTH - RIGHT,
        };
        let y =
            Axis { from: 10f64.powf(least), to: 10f64.powf(most), low: HEIGHT - BOTTOM, high: TOP };
        Picture { x, y, text: String::new() }
    }

    fn line(&mut self, from: (f64, f64), to: (f64, f64), style: &str) {
        self.push(&format!(
            r#"<line x1="{:.1}" y1="{:.1}" x2="{:.1}" y2="{:.1}" {}/>"#,
            from.0, from.1, to.0, to.1, style
        ));
    }

    fn words(&mut self, at: (f64, f64), anchor: &str, words: &str) {
        self.push(&format!(
            r#"<text x="{:.1}" y="{:.1}" text-anchor="{}">{}</text>"#,
            at.0, at.1, anchor, words
        ));
    }

    fn push(&mut self, element: &str) {
        writeln!(self.text, "{}", element).expect("a string takes all");
    }

    fn scales(&mut self, sizes: &[usize]) {
        let (left, right, bottom) = (LEFT, WIDTH - RIGHT, HEIGHT - BOTTOM);
        let grid = r##"stroke="#e5e5e5""##;
        let mut power = self.y.from;
        while power <= self.y.to * 1.01 {
            let y = self.y.at(power);
            self.line((left, y), (right, y), grid);
            self.words((left - 8.0, y + 4.0), "end", &format!("{}", power));
            power *= 10.0;
        }
        for &nodes in sizes {
            let x = self.x.at(nodes as f64);
            self.line((x, bottom), (x, TOP), grid);
            self.words((x, bottom + 20.0), "middle", &nodes.to_string());
        }
        self.words(((left + right) / 2.0, bottom + 44.0), "middle", "nodes of the pool");
        self.words((left - 8.0, TOP - 16.0), "start", "nanoseconds of processor time a node");
    }

    fn curve(&mut self, points: &[Point], value: fn(&Point) -> f64, style: &str) {
        let place =
            |p: &Point| format!("{:.1},{:.1}", self.x.at(p.nodes as f64), self.y.at(value(p)));
        let places: Vec<String> = points.iter().map(place).collect();
        self.push(&format!(r#"<polyline fill="none" points="{}" {}/>"#, places.join(" "), style));
    }

    fn series(&mut self, place: usize, series: &Series) {
        let colour = COLOURS[place % COLOURS.len()];
        let solid = format!(r#"stroke="{}" stroke-width="2.5""#, colour);
        let dashed = format!(r#"stroke="{}" stroke-width="1.2" stroke-dasharray="5 4""#, colour);
        self.curve(&series.points, Point::port, &solid);
        self.curve(&series.points, Point::original, &dashed);
        let (x, y) = (WIDTH - RIGHT + 16.0, TOP + 24.0 * place as f64);
        self.line((x, y), (x + 24.0, y), &solid);
        self.words((x + 32.0, y + 4.0), "start", series.title);
    }
}

/// The picture of what was measured.
pub fn picture(series: &[Series]) -> String {
    let mut picture = Picture::new(series);
    let sizes: Vec<usize> = series[0].points.iter().map(|point| point.nodes).collect();
    picture.scales(&sizes);
    series.iter().enumerate().for_each(|(place, one)| picture.series(place, one));
    let below = TOP + 24.0 * series.len() as f64 + 8.0;
    let right = WIDTH - RIGHT + 16.0;
    picture.words((right, below), "start", "solid: the port");
    picture.words((right, below + 20.0), "start", "dashed: the original, or");
    picture.words((right, below + 40.0), "start", "a plain interpreter");
    format!(
        "<svg xmlns=\"http://www.w3.org/2000/svg\" viewBox=\"0 0 {w} {h}\" width=\"{w}\" height=\"{h}\" \
         font-family=\"sans-serif\" font-size=\"13\">\n<rect width=\"{w}\" height=\"{h}\" fill=\"white\"/>\n{}</svg>\n",
        picture.text,
        w = WIDTH,
        h = HEIGHT,
    )
}
