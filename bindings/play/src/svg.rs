//! The plate: a drawing of the board for each call, with its records numbered in order.

use crate::geometry::{middle, way, Point, Way, GAP, ROOM};
use crate::layout::{cells, Cell};
use crate::played::{exact, meaning, Played};
use crate::text::Script;
use katmos::{Board, Event, FIRELOCK};
use std::collections::HashMap;

const MARGIN: f32 = 36.0;
const LEAST_WIDTH: f32 = 720.0;
/// The lines of the list of records, and how many are listed.
const LINE: f32 = 15.0;
const LISTED: usize = 200;
const GIVES: &str = "#b3390b";
const LOCK: &str = "#8c1d40";

/// The plate of a run. Four rooms in a line are as wide as a page; it grows up to 40 cm.
pub fn plate(script: &Script, played: &[Played]) -> String {
    let sheet = Sheet::new(script, played);
    let mut body = format!("<text x='0' y='20' font-size='20' font-weight='bold'>{}</text>\n", escaped(&script.title));
    let mut y = if script.title.is_empty() { 0.0 } else { 44.0 };
    for played in played {
        let (text, height) = sheet.panel(played);
        body += &format!("<g transform='translate(0 {y:.1})'>\n{text}</g>\n");
        y += height;
    }
    body += &format!("<g transform='translate(0 {y:.1})'>\n{}</g>\n", sheet.key(arrows(played)));
    let (width, height) = (sheet.width + 2.0 * MARGIN, y + 72.0 + 2.0 * MARGIN);
    let page = (0.24 * width).min(400.0);
    format!(
        "<svg xmlns='http://www.w3.org/2000/svg' width='{page:.1}mm' height='{:.1}mm' viewBox='0 0 {width:.1} {height:.1}' \
         font-family='Helvetica, Arial, DejaVu Sans, sans-serif' font-size='12' fill='#1b1f24'>\n\
         <rect width='100%' height='100%' fill='white'/>\n<g transform='translate({MARGIN} {MARGIN})'>\n{body}</g>\n</svg>\n",
        page * height / width
    )
}

/// What red arrows mean: of a difference they are loops, unless one leads to another room.
fn arrows(played: &[Played]) -> &'static str {
    let leads = |event| matches!(event, Event::Difference { from, to, .. } if from != to);
    if played.iter().flat_map(|played| played.events.iter().flatten()).any(leads) {
        "gives; depressurize: difference"
    } else {
        "gives, as planned; loop: difference"
    }
}

/// Text between tags.
fn escaped(text: &str) -> String {
    let text: String = text.chars().filter(|sign| !sign.is_control()).collect();
    text.replace('&', "&amp;").replace('<', "&lt;").replace('>', "&gt;")
}

/// An amount: exact where that is short, else after `~` with two decimals.
fn short(amount: f32) -> String {
    let exact = exact(amount);
    match amount {
        _ if exact.len() <= 7 => exact,
        amount if amount < 0.01 || amount >= 1.0e6 => format!("~{amount:.2e}"),
        amount => format!("~{amount:.2}").trim_end_matches('0').trim_end_matches('.').to_string(),
    }
}

/// A mark's shape and colours.
struct Mark {
    fill: &'static str,
    ink: &'static str,
    square: bool,
}

/// The mark of an event that stands at a room.
fn mark(event: &Event) -> Mark {
    let (fill, ink, square) = match event {
        Event::DepressurizeWanted { .. } | Event::PlanetWanted { .. } => ("#c4122f", "white", false),
        Event::Firelock { .. } => (LOCK, "white", true),
        Event::Target { .. } => ("white", "#1b1f24", false),
        Event::HighPressure { .. } => ("#f2b134", "#1b1f24", false),
        Event::FloorRip { .. } => ("#5b4636", "white", true),
        Event::Pressure { .. } | Event::Difference { .. } => (GIVES, "white", false),
    };
    Mark { fill, ink, square }
}

/// A numbered mark at a point.
fn numbered(at: Point, event: &Event, number: usize) -> String {
    let Mark { fill, ink, square } = mark(event);
    let (x, y, half) = (at.x, at.y, if number > 99 { 11.0 } else { 9.0 });
    let round = if square { 2.0 } else { half };
    let (left, top, size) = (x - half, y - 9.0, 2.0 * half);
    format!(
        "<rect x='{left:.1}' y='{top:.1}' width='{size}' height='18' rx='{round}' fill='{fill}' stroke='#1b1f24' stroke-width='0.8'/>\
         <text x='{x:.1}' y='{:.1}' font-size='10.5' font-weight='bold' text-anchor='middle' fill='{ink}'>{number}</text>\n",
        y + 3.8
    )
}

/// An arrow's head with its tip here.
fn head(tip: Point, along: Point, color: &str) -> String {
    let (back, side) = (tip.plus(-11.0, along), along.turned());
    let [a, b] = [5.5, -5.5].map(|far| back.plus(far, side));
    format!("<path d='M{:.1} {:.1}L{:.1} {:.1}L{:.1} {:.1}Z' fill='{color}'/>\n", tip.x, tip.y, a.x, a.y, b.x, b.y)
}

/// An amount beside a point of an arrow's way, so that it doesn't lie on it: above, or at the side to which the way bends.
fn beside(at: Point, way: &Way, amount: f32) -> String {
    let (x, y, anchor) = match (way.along().is_level(), way.bends_left()) {
        (true, _) => (at.x, at.y - 14.0, "middle"),
        (false, true) => (at.x - 12.0, at.y + 4.0, "end"),
        (false, false) => (at.x + 14.0, at.y + 4.0, "start"),
    };
    let halo = "stroke='white' stroke-width='3' paint-order='stroke'";
    format!("<text x='{x:.1}' y='{y:.1}' font-weight='bold' fill='{GIVES}' text-anchor='{anchor}' {halo}>{}</text>\n", short(amount))
}

/// What every panel shares: the rooms' places and the scale of colours.
struct Sheet<'a> {
    script: &'a Script,
    rows: HashMap<u32, usize>,
    cells: Vec<Cell>,
    width: f32,
    height: f32,
    most: f32,
}

impl<'a> Sheet<'a> {
    /// Puts the rooms in place, the first column and row being 0.
    fn new(script: &'a Script, played: &[Played]) -> Sheet<'a> {
        let found = cells(&script.places, &script.board.tables);
        let left = found.iter().map(|cell| cell.0).min().unwrap_or(0);
        let top = found.iter().map(|cell| cell.1).min().unwrap_or(0);
        let cells: Vec<Cell> = found.into_iter().map(|(x, y)| (x - left, y - top)).collect();
        let far = |size: f32, gap: f32, most: i32| (most + 1) as f32 * (size + gap) - gap;
        let width = far(ROOM.0, GAP.0, cells.iter().map(|cell| cell.0).max().unwrap_or(0));
        let height = far(ROOM.1, GAP.1, cells.iter().map(|cell| cell.1).max().unwrap_or(0));
        let rows = script.places.iter().enumerate().map(|(row, place)| (place.id, row)).collect();
        let boards = played.iter().flat_map(|played| [&played.before, &played.after]);
        let most = boards.flat_map(|board| script.places.iter().filter_map(|place| board.total_of(place.id))).fold(0.0, f32::max);
        Sheet { script, rows, cells, width: width.max(LEAST_WIDTH), height, most }
    }

    /// One call: its heading, the board with its records, the list of them. The panel's height is given too.
    fn panel(&self, played: &Played) -> (String, f32) {
        let events: Vec<Event> = played.events.iter().flatten().collect();
        let heading = format!("<text y='14' font-size='14' font-weight='bold'>{}</text>\n", escaped(&played.call));
        let counts = format!("<text y='32' fill='#555'>{}, bytes {}</text>\n", escaped(&played.counts), played.events.as_bytes().len());
        let board = [self.links(&played.before), self.rooms(played), self.records(&events)].concat();
        let (list, high) = self.list(&events);
        let down = 58.0 + self.height + 44.0;
        let text = format!("{heading}{counts}<g transform='translate(0 58)'>\n{board}</g>\n<g transform='translate(0 {down:.1})'>\n{list}</g>\n");
        (text, down + high + 26.0)
    }

    /// The links: a band, with a bar for a firelock; one that has no link back ends in a head.
    fn links(&self, board: &Board) -> String {
        let t = &board.tables;
        let mut text = String::new();
        for row in 0..t.ids.len() {
            for link in t.starts[row] as usize..t.starts[row + 1] as usize {
                let to = t.neighbours[link] as usize;
                let back = t.neighbours[t.starts[to] as usize..t.starts[to + 1] as usize].contains(&(row as u32));
                let way = way(self.cells[row], self.cells[to], 0.0);
                if !back || row < to {
                    text += &format!("<path d='{}' fill='none' stroke='#d5d9de' stroke-width='12'/>\n", way.path(0.0));
                }
                if !back {
                    text += &head(way.end, way.arrival(), "#8b929b");
                }
                if t.link_flags[link] & FIRELOCK != 0 {
                    text += &lock(&way);
                }
            }
        }
        text
    }

    /// The rooms: name, the amount before and the amount after, each on its colour.
    fn rooms(&self, played: &Played) -> String {
        (0..self.cells.len()).map(|row| self.room(row, played)).collect()
    }

    /// One room.
    fn room(&self, row: usize, played: &Played) -> String {
        let (t, place) = (&played.before.tables, &self.script.places[row]);
        let Point { x, y } = middle(self.cells[row]).plus(-0.5, Point { x: ROOM.0, y: ROOM.1 });
        let fixed = t.immutable[t.mixtures[row] as usize] != 0;
        let half = |top: f32, word: &str, board: &Board| self.half(Point { x, y: y + top }, word, board.total_of(place.id).unwrap_or(0.0), fixed);
        let edge = if t.planetary[row] != 0 { "#1f7a3a" } else { "#1b1f24" };
        let dashes = if t.flags[row] & 3 == 0 { " stroke-dasharray='5 4'" } else { "" };
        let border = format!(
            "<rect x='{x:.1}' y='{y:.1}' width='{}' height='{}' rx='4' fill='none' stroke='{edge}' stroke-width='{}'{dashes}/>\n",
            ROOM.0,
            ROOM.1,
            if t.planetary[row] != 0 { 4 } else { 2 }
        );
        let name: String = place.name.chars().take(15usize.saturating_sub(place.id.to_string().len())).collect();
        let ground = format!("<rect x='{x:.1}' y='{y:.1}' width='{}' height='{}' rx='4' fill='white'/>\n", ROOM.0, ROOM.1);
        let title =
            format!("<text x='{:.1}' y='{:.1}'><tspan font-weight='bold'>{}</tspan> {}</text>\n", x + 7.0, y + 22.0, place.id, escaped(&name));
        format!("{ground}{}{}{title}{border}", half(28.0, "before", &played.before), half(56.0, "after", &played.after))
    }

    /// A room's amount before or after.
    fn half(&self, at: Point, word: &str, total: f32, fixed: bool) -> String {
        let (fill, ink) = if fixed { ("#2b2f36".into(), "white") } else { self.color(total) };
        let (x, y) = (at.x, at.y + 18.5);
        format!(
            "<rect x='{x:.1}' y='{:.1}' width='{}' height='28' fill='{fill}'/><text x='{:.1}' y='{y:.1}' font-size='9.5' fill='{ink}'>{word}</text>\
             <text x='{:.1}' y='{y:.1}' font-size='13' text-anchor='end' fill='{ink}'>{}</text>\n",
            at.y,
            ROOM.0,
            x + 7.0,
            x + ROOM.0 - 8.0,
            short(total)
        )
    }

    /// The colour of an amount, light to dark, and that of letters on it.
    fn color(&self, total: f32) -> (String, &'static str) {
        let part = if self.most > 0.0 { (total / self.most).clamp(0.0, 1.0) } else { 0.0 };
        let mix = |light: f32, dark: f32| (light + part * (dark - light)) as u8;
        let fill = format!("#{:02x}{:02x}{:02x}", mix(240.0, 22.0), mix(246.0, 84.0), mix(251.0, 148.0));
        (fill, if part > 0.5 { "white" } else { "#1b1f24" })
    }

    /// The records, each at its place, numbered from 1.
    fn records(&self, events: &[Event]) -> String {
        let mut used = HashMap::new();
        let mut text = String::new();
        for (at, event) in events.iter().enumerate() {
            text += &match *event {
                Event::Pressure { amount, from, to, .. } => self.between(event, at + 1, (from, to), Some(amount), &mut used),
                Event::Firelock { id, neighbour } => self.between(event, at + 1, (id, neighbour), None, &mut used),
                Event::Difference { id, amount, from, to } if from == to => self.around(event, at + 1, id, amount, &mut used),
                Event::Difference { amount, from, to, .. } => self.between(event, at + 1, (from, to), Some(amount), &mut used),
                Event::DepressurizeWanted { id } | Event::PlanetWanted { id } | Event::Target { id, .. } => self.upon(event, at + 1, id, &mut used),
                Event::HighPressure { id } | Event::FloorRip { id, .. } => self.upon(event, at + 1, id, &mut used),
            };
        }
        text
    }

    /// A record between two rooms: an arrow with its amount, or only its number.
    fn between(&self, event: &Event, number: usize, (from, to): (u32, u32), amount: Option<f32>, used: &mut Used) -> String {
        let (Some(&a), Some(&b)) = (self.rows.get(&from), self.rows.get(&to)) else { return String::new() };
        let (from, to) = (self.cells[a], self.cells[b]);
        let way = way(from, to, aside(count(used, (a.min(b), a.max(b), 0))));
        let Some(amount) = amount else { return numbered(way.at(0.5), event, number) };
        let way = if matches!(event, Event::Difference { .. }) { way.off_marks(from, to) } else { way };
        let at = way.at(0.45);
        let line = format!("<path d='{}' fill='none' stroke='{GIVES}' stroke-width='3.2'/>\n", way.path(8.0));
        [line, head(way.end, way.arrival(), GIVES), numbered(at, event, number), beside(at, &way, amount)].concat()
    }

    /// An arrow from a room to itself, below it, with its amount.
    fn around(&self, event: &Event, number: usize, id: u32, amount: f32, used: &mut Used) -> String {
        let Some(&row) = self.rows.get(&id) else { return String::new() };
        let place = count(used, (row, row, 1)) as f32;
        let corner = middle(self.cells[row]).plus(0.5, Point { x: -ROOM.0, y: ROOM.1 }).plus(1.0, Point { x: 8.0 + 56.0 * place, y: 0.0 });
        let (x, y) = (corner.x, corner.y);
        let path = format!("M{x:.1} {y:.1}C{:.1} {:.1} {:.1} {:.1} {:.1} {:.1}", x - 6.0, y + 34.0, x + 28.0, y + 34.0, x + 22.0, y + 8.0);
        let line = format!("<path d='{path}' fill='none' stroke='{GIVES}' stroke-width='2.4'/>\n");
        let tip = head(Point { x: x + 21.0, y: y + 1.0 }, Point { x: -0.1, y: -1.0 }, GIVES);
        let text =
            format!("<text x='{:.1}' y='{:.1}' font-size='11' font-weight='bold' fill='{GIVES}'>{}</text>\n", x + 23.0, y + 28.0, short(amount));
        [line, tip, numbered(Point { x: x + 10.0, y: y + 23.0 }, event, number), text].concat()
    }

    /// A record that stands at one room: on its upper edge, five in a line.
    fn upon(&self, event: &Event, number: usize, id: u32, used: &mut Used) -> String {
        let Some(&row) = self.rows.get(&id) else { return String::new() };
        let place = count(used, (row, row, 0));
        let by = Point { x: 14.0 + 19.5 * (place % 5) as f32, y: -2.0 - 19.0 * (place / 5) as f32 };
        numbered(middle(self.cells[row]).plus(-0.5, Point { x: ROOM.0, y: ROOM.1 }).plus(1.0, by), event, number)
    }

    /// The records as a list in columns, and its height.
    fn list(&self, events: &[Event]) -> (String, f32) {
        let shown = &events[..events.len().min(LISTED)];
        let longest = |words: &dyn Fn(&Event) -> String| shown.iter().map(|event| words(event).len()).max().unwrap_or(0) as f32;
        let words_at = 36.0 + 5.8 * longest(&|event| event.to_string());
        let wide = words_at + 5.4 * longest(&|event| meaning(event)) + 10.0;
        let columns = ((self.width / wide) as usize).max(1);
        let lines = shown.len().div_ceil(columns).max(1);
        let place = |at: usize| Point { x: (at / lines) as f32 * wide, y: (at % lines) as f32 * LINE };
        let mut text: String = shown.iter().enumerate().map(|(at, event)| listed(place(at), at + 1, event, words_at)).collect();
        if shown.len() < events.len() {
            text += &format!("<text y='{}'>and {} more</text>\n", lines as f32 * LINE, events.len() - shown.len());
        }
        (text, (lines + 1) as f32 * LINE)
    }

    /// What colours and marks mean.
    fn key(&self, arrows: &str) -> String {
        let bar: String = (0..40)
            .map(|at| format!("<rect x='{}' y='12' width='4' height='12' fill='{}'/>", at * 4, self.color(self.most * at as f32 / 39.0).0))
            .collect();
        let scale =
            format!("{bar}<text y='38' font-size='10'>0</text><text x='160' y='38' font-size='10' text-anchor='end'>{}</text>\n", short(self.most));
        let marks = [
            (Event::Pressure { zone: 0, amount: 0.0, from: 0, to: 0 }, arrows, (210, 18)),
            (Event::DepressurizeWanted { id: 0 }, "asks", (445, 18)),
            (Event::Firelock { id: 0, neighbour: 0 }, "firelock shuts", (530, 18)),
            (Event::Target { id: 0, target: 0 }, "empties towards space", (210, 42)),
            (Event::HighPressure { id: 0 }, "high pressure", (375, 42)),
            (Event::FloorRip { id: 0, amount: 0.0 }, "floor rips", (530, 42)),
        ];
        let word = |(event, word, (x, y)): &(Event, &str, (i32, i32))| {
            let at = Point { x: *x as f32, y: *y as f32 };
            format!("{}<text x='{}' y='{}' font-size='10.5'>{word}</text>\n", numbered(at, event, 1), x + 14, y + 4)
        };
        let kinds = "<text x='201' y='68' font-size='10.5'>dark: immutable; green edge: planetary; dashed edge: disabled; bars: a firelock</text>";
        format!("<path d='M0 0H{}' stroke='#8b929b'/>\n{scale}{}{kinds}\n", self.width, marks.iter().map(word).collect::<String>())
    }
}

/// A line of the list: number, the lister's line, what it says.
fn listed(Point { x, y }: Point, number: usize, event: &Event, words_at: f32) -> String {
    let bold = format!("<text x='{:.1}' y='{y}' font-size='10.5' font-weight='bold' text-anchor='end'>{number}</text>", x + 20.0);
    let line = format!("<text x='{:.1}' y='{y}' font-size='9.5' font-family='DejaVu Sans Mono, monospace' fill='#555'>{event}</text>", x + 28.0);
    format!("{bold}{line}<text x='{:.1}' y='{y}' font-size='10.5'>{}</text>\n", x + words_at, meaning(event))
}

/// How many records stand at a place already.
type Used = HashMap<(usize, usize, u8), usize>;

/// That number, counting this one for the next.
fn count(used: &mut Used, place: (usize, usize, u8)) -> usize {
    let count = used.entry(place).or_insert(0);
    *count += 1;
    *count - 1
}

/// How many places beside the usual way a record is drawn, behind so many others: none, then on one side and on the other by turns.
fn aside(others: usize) -> f32 {
    let places = others.div_ceil(2) as f32;
    if others % 2 == 1 {
        places
    } else {
        -places
    }
}

/// A firelock's bar across a link, near its start.
fn lock(way: &Way) -> String {
    let (at, side) = (way.at(0.16), way.along().turned());
    let [a, b] = [11.0, -11.0].map(|far| at.plus(far, side));
    format!("<path d='M{:.1} {:.1}L{:.1} {:.1}' stroke='{LOCK}' stroke-width='5'/>\n", a.x, a.y, b.x, b.y)
}
