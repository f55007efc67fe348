//! Cost against size as a picture: two panels, by turfs and by links, both scales logarithmic.

use std::fmt::Write;
use std::time::Duration;

/// A board's size, what the call costs on it, and what reading its tables once takes.
pub struct Point {
    pub turfs: usize,
    pub links: usize,
    pub cost: Duration,
    pub read: Duration,
}

/// Boards of one kind, growing.
pub struct Family {
    pub name: &'static str,
    pub points: Vec<Point>,
}

const COLOURS: [&str; 7] = ["#0072b2", "#e69f00", "#009e73", "#cc79a7", "#56b4e9", "#d55e00", "#000000"];
const WIDTH: f64 = 400.0;
const HEIGHT: f64 = 380.0;
const TOP: f64 = 64.0;
/// The scales' ends: size as powers of 2, ns as powers of 10.
const SIZES: (f64, f64) = (0.5, 15.0);
const TIMES: (f64, f64) = (1.5, 9.0);

/// A panel that starts this far from the left and takes a point's size so.
struct Panel {
    left: f64,
    title: &'static str,
    size: fn(&Point) -> usize,
}

impl Panel {
    fn x(&self, power: f64) -> f64 {
        self.left + WIDTH * (power - SIZES.0) / (SIZES.1 - SIZES.0)
    }
    fn y(power: f64) -> f64 {
        TOP + HEIGHT * (TIMES.1 - power) / (TIMES.1 - TIMES.0)
    }
    /// Where a point stands whose time is the given one.
    fn place(&self, point: &Point, time: Duration) -> (f64, f64) {
        (self.x(((self.size)(point) as f64).log2()), Self::y((time.as_nanos().max(1) as f64).log10()))
    }
    /// Frame, lines of the scales, their words.
    fn frame(&self, svg: &mut String) {
        let (left, right, bottom) = (self.left, self.left + WIDTH, TOP + HEIGHT);
        for power in 2..=9 {
            let (y, word) = (Self::y(power.into()), ["100 ns", "1 µs", "10 µs", "100 µs", "1 ms", "10 ms", "100 ms", "1 s"][power as usize - 2]);
            let _ = writeln!(svg, r##"<path d="M{left:.1} {y:.1}H{right:.1}" stroke="#ddd"/>"##);
            let _ = writeln!(svg, r#"<text x="{:.1}" y="{:.1}" text-anchor="end">{word}</text>"#, left - 6.0, y + 4.0);
        }
        for power in (1..=14).step_by(2).chain([14]) {
            let (x, size) = (self.x(power.into()), 1 << power);
            let _ = writeln!(svg, r##"<path d="M{x:.1} {TOP}V{bottom:.1}" stroke="#eee"/>"##);
            if power != 14 {
                let _ = writeln!(svg, r#"<text x="{x:.1}" y="{:.1}" text-anchor="middle">{size}</text>"#, bottom + 16.0);
            }
        }
        let _ = writeln!(svg, r##"<rect x="{left}" y="{TOP}" width="{WIDTH}" height="{HEIGHT}" fill="none" stroke="#888"/>"##);
        let _ = writeln!(svg, r#"<text x="{:.1}" y="{:.1}" text-anchor="middle">{}</text>"#, left + WIDTH / 2.0, bottom + 36.0, self.title);
    }
    /// A line through the points of a kind.
    fn line(&self, svg: &mut String, points: &[Point], time: fn(&Point) -> Duration, how: &str) {
        let places: Vec<String> = points.iter().map(|point| self.place(point, time(point))).map(|(x, y)| format!("{x:.1},{y:.1}")).collect();
        let _ = writeln!(svg, r#"<polyline points="{}" fill="none" {how}/>"#, places.join(" "));
    }
    fn draw(&self, svg: &mut String, families: &[Family]) {
        self.frame(svg);
        families.iter().for_each(|family| self.line(svg, &family.points, |point| point.read, r##"stroke="#999" stroke-dasharray="4 3""##));
        for (family, colour) in families.iter().zip(COLOURS) {
            self.line(svg, &family.points, |point| point.cost, &format!(r#"stroke="{colour}" stroke-width="2""#));
            for (x, y) in family.points.iter().map(|point| self.place(point, point.cost)) {
                let _ = writeln!(svg, r#"<circle cx="{x:.1}" cy="{y:.1}" r="2.5" fill="{colour}"/>"#);
            }
        }
    }
}

/// The kinds' names in their colours, in rows of four, and the dashes' meaning.
fn legend(svg: &mut String, families: &[Family]) {
    let names = families.iter().map(|family| family.name).zip(COLOURS.map(|colour| format!(r#"stroke="{colour}" stroke-width="3""#)));
    let dashes = [("reading each table once", r##"stroke="#999" stroke-dasharray="4 3""##.to_string())];
    for (place, (name, how)) in names.chain(dashes).enumerate() {
        let (x, y) = (70.0 + 225.0 * (place % 4) as f64, TOP + HEIGHT + 62.0 + 20.0 * (place / 4) as f64);
        let _ = writeln!(svg, r#"<path d="M{x} {:.1}h26" {how}/><text x="{}" y="{y:.1}">{name}</text>"#, y - 4.0, x + 32.0);
    }
}

/// The whole picture; `machine` says where it was measured.
pub fn svg(families: &[Family], machine: &str) -> String {
    let mut svg = String::from(
        r#"<svg xmlns="http://www.w3.org/2000/svg" width="960" height="545" viewBox="0 0 960 545" font-family="sans-serif" font-size="12">"#,
    );
    svg += "\n<rect width=\"960\" height=\"545\" fill=\"#fff\"/>\n";
    svg += "<text x=\"70\" y=\"26\" font-size=\"16\">One call of katmos_equalize: its time against the size of the board</text>\n";
    let _ = writeln!(svg, r##"<text x="70" y="46" fill="#555">{machine}; the least of many calls; both scales logarithmic</text>"##);
    let turfs = Panel { left: 70.0, title: "turfs", size: |point| point.turfs };
    let links = Panel { left: 540.0, title: "links", size: |point| point.links };
    [turfs, links].iter().for_each(|panel| panel.draw(&mut svg, families));
    legend(&mut svg, families);
    svg + "</svg>\n"
}
