//! Counts the messages of streams of draws beside the allowance and beside one message for each
//! draw, and writes a table and a plot: `messages TABLE.md PLOT.svg`.
//!
//! The counts are those of the rules, taken from the separate implementation in tests/reference;
//! the proved batch call writes the same messages (tests/ compares them).

use reference::coordinator::start_coordinator;
use reference::message::{Arrival, Message};
use reference::network::run_batch;
use reference::settings::{allowance, Settings};
use reference::site::start_sites;
use std::fmt::Write;

/// Decks, slots and leeway of the four settings; the list share is 2 × leeway or more.
const SETTINGS: [(u32, u32, u32); 4] = [(1, 6, 1000), (4, 100, 60), (8, 600, 10), (32, 3000, 2)];
const STREAMS: [&str; 3] = ["uniform", "Zipf", "adversarial"];
const MARKS: [u64; 4] = [1_000, 10_000, 100_000, 1_000_000];
const UNIVERSE: u32 = 65536;
const BATCH: u64 = 100;

struct Random(u64);

impl Random {
    /// splitmix64.
    fn next(&mut self) -> u64 {
        self.0 = self.0.wrapping_add(0x9e37_79b9_7f4a_7c15);
        let mut z = self.0;
        z = (z ^ (z >> 30)).wrapping_mul(0xbf58_476d_1ce4_e5b9);
        z = (z ^ (z >> 27)).wrapping_mul(0x94d0_49bb_1331_11eb);
        z ^ (z >> 31)
    }

    fn below(&mut self, n: u64) -> u64 {
        self.next() % n
    }
}

/// The n-th draw of a stream: all codes alike; codes with frequencies falling as 1 / rank; or one
/// code at all decks in turn, which makes every deck report it as often as it may.
fn draw(stream: &str, random: &mut Random, sites: u32, n: u64) -> Arrival {
    let value = 1 + random.below(1023) as u32;
    let site = random.below(u64::from(sites)) as u32;
    let item = match stream {
        "uniform" => random.below(u64::from(UNIVERSE)) as u32,
        "Zipf" => {
            let part = (random.below(1 << 53) as f64) / (1u64 << 53) as f64;
            (f64::from(UNIVERSE).powf(part) - 1.0) as u32
        }
        _ => return Arrival { site: (n % u64::from(sites)) as u32, item: 7, value },
    };
    Arrival { site, item, value }
}

/// Messages after so many draws, at each mark and ten times between two of them.
fn count(settings: &Settings, stream: &str) -> Vec<(u64, u64)> {
    let mut random = Random(7);
    let mut site_memory = vec![0; settings.sites_memory_len()];
    let mut coordinator_memory = vec![0; settings.coordinator_memory_len()];
    let (_, mut sites) = start_sites(settings, &mut site_memory);
    let (_, mut coordinator) = start_coordinator(settings, &mut coordinator_memory);
    let room = settings.messages_per_arrival() * BATCH as usize;
    let mut log = vec![Message::new(0, 0, 0, 0); room];
    let mut points = Vec::new();
    let mut next_point = BATCH;
    let mut n = 0;
    while n < MARKS[3] {
        let arrivals: Vec<Arrival> =
            (n..n + BATCH).map(|i| draw(stream, &mut random, settings.sites, i)).collect();
        let answer = run_batch(
            settings,
            &mut sites,
            &mut site_memory,
            &mut coordinator,
            &mut coordinator_memory,
            &arrivals,
            &mut log,
        );
        assert_eq!(answer.refusal, 0);
        n += BATCH;
        if n >= next_point || MARKS.contains(&n) {
            points.push((n, sites.all_messages(settings)));
            next_point = (n as f64 * 1.25) as u64;
        }
    }
    points
}

fn at(points: &[(u64, u64)], n: u64) -> u64 {
    points.iter().find(|p| p.0 == n).map_or(0, |p| p.1)
}

/// One of the plot's four panels. Both axes are logarithmic: draws from 100 to 10^6, messages from
/// 100 to the power of ten above the allowance.
struct Panel {
    left: f64,
    top: f64,
    /// Powers of ten of messages that the panel is high.
    decades: i32,
}

const WIDE: f64 = 270.0;
const HIGH: f64 = 240.0;
/// Room for one line of text beside another.
const LABEL: f64 = 15.0;

/// How a line is drawn. Lines that run together have three widths, the wider ones below, so that
/// none hides another, in black and white too.
struct Pen {
    colour: &'static str,
    width: f64,
    dash: &'static str,
}

const PENS: [Pen; 3] = [
    Pen { colour: "#a9d3ec", width: 9.0, dash: "" },
    Pen { colour: "#e0701a", width: 4.5, dash: "" },
    Pen { colour: "#000000", width: 1.3, dash: "" },
];
const ALLOWANCE: Pen = Pen { colour: "#222222", width: 1.8, dash: "9 5" };
const ONE_EACH: Pen = Pen { colour: "#555555", width: 1.8, dash: "2 4" };

/// A number with commas: 10,000.
fn with_commas(number: u64) -> String {
    let digits = number.to_string();
    let mut text = String::new();
    for (place, digit) in digits.chars().enumerate() {
        if place > 0 && (digits.len() - place) % 3 == 0 {
            text.push(',');
        }
        text.push(digit);
    }
    text
}

fn text(svg: &mut String, x: f64, y: f64, attributes: &str, what: &str) {
    writeln!(svg, "<text x=\"{x:.0}\" y=\"{y:.0}\" {attributes}>{what}</text>").unwrap();
}

fn path(svg: &mut String, points: &[(f64, f64)], pen: &Pen) {
    let places: Vec<String> = points.iter().map(|p| format!("{:.1},{:.1}", p.0, p.1)).collect();
    writeln!(
        svg,
        "<polyline fill=\"none\" stroke=\"{}\" stroke-width=\"{}\" stroke-dasharray=\"{}\" \
         points=\"{}\"/>",
        pen.colour,
        pen.width,
        if pen.dash.is_empty() { "none" } else { pen.dash },
        places.join(" ")
    )
    .unwrap();
}

impl Panel {
    fn new(number: usize, most: u64) -> Panel {
        let mut decades = 1;
        while 100 * 10u64.pow(decades) < most {
            decades += 1;
        }
        Panel {
            left: 100.0 + 500.0 * (number % 2) as f64,
            top: 60.0 + 340.0 * (number / 2) as f64,
            decades: decades as i32,
        }
    }

    fn place(&self, n: f64, messages: f64) -> (f64, f64) {
        let x = self.left + WIDE * (n.log10() - 2.0) / 4.0;
        let y = self.top + HIGH * (1.0 - (messages.log10() - 2.0) / f64::from(self.decades));
        (x, y)
    }

    /// Title, grid, numbers at the axes and what they count.
    fn frame(&self, svg: &mut String, title: &str) {
        let (right, bottom) = (self.left + WIDE, self.top + HIGH);
        let grey = Pen { colour: "#d9d9d9", width: 1.0, dash: "" };
        for power in 2..=6 {
            let (x, _) = self.place(10f64.powi(power), 100.0);
            path(svg, &[(x, self.top), (x, bottom)], &grey);
            let number = with_commas(10u64.pow(power as u32));
            text(svg, x, bottom + 18.0, "text-anchor=\"middle\"", &number);
        }
        for power in 2..=2 + self.decades {
            let (_, y) = self.place(100.0, 10f64.powi(power));
            path(svg, &[(self.left, y), (right, y)], &grey);
            let number = with_commas(10u64.pow(power as u32));
            text(svg, self.left - 7.0, y + 4.0, "text-anchor=\"end\"", &number);
        }
        let bold = "font-weight=\"bold\" font-size=\"14\"";
        text(svg, self.left, self.top - 14.0, bold, title);
        let middle = (self.left + right) / 2.0;
        text(svg, middle, bottom + 38.0, "text-anchor=\"middle\" font-size=\"13\"", "draws taken");
        let (x, y) = (self.left - 84.0, (self.top + bottom) / 2.0);
        let turned = format!(
            "text-anchor=\"middle\" font-size=\"13\" transform=\"rotate(-90 {x:.0} {y:.0})\""
        );
        text(svg, x, y, &turned, "messages");
    }

    /// Draws a line as far as it is within the panel, and answers where it ends.
    fn line(&self, svg: &mut String, points: &[(f64, f64)], pen: &Pen) -> (f64, f64) {
        let places: Vec<(f64, f64)> = points.iter().map(|p| self.place(p.0, p.1)).collect();
        path(svg, &places, pen);
        *places.last().expect("a line has points")
    }

    /// Names each line at its right end; names that would touch are moved apart.
    fn names(&self, svg: &mut String, mut ends: Vec<(f64, &str, &Pen)>) {
        ends.sort_by(|a, b| a.0.total_cmp(&b.0));
        let right = self.left + WIDE;
        let mut places: Vec<f64> = ends.iter().map(|end| end.0).collect();
        for _ in 0..200 {
            for i in 1..places.len() {
                let missing = LABEL - (places[i] - places[i - 1]);
                if missing > 0.0 {
                    places[i - 1] -= missing / 2.0;
                    places[i] += missing / 2.0;
                }
            }
        }
        for (end, y) in ends.iter().zip(places) {
            path(svg, &[(right + 2.0, end.0), (right + 14.0, y)], &Pen { width: 0.8, ..ONE_EACH });
            path(svg, &[(right + 14.0, y), (right + 36.0, y)], end.2);
            text(svg, right + 41.0, y + 4.0, "", end.1);
        }
    }
}

fn main() {
    let paths: Vec<String> = std::env::args().skip(1).collect();
    let mut table = String::from(
        "| decks | slots | leeway | stream | draws | messages | messages a draw | allowance |\n\
         |---|---|---|---|---|---|---|---|\n",
    );
    let mut svg = String::from(
        "<svg xmlns=\"http://www.w3.org/2000/svg\" viewBox=\"0 0 1000 740\" width=\"1000\" \
         height=\"740\" role=\"img\" font-family=\"sans-serif\" font-size=\"12\" \
         fill=\"#222222\">\n\
         <title>Messages by draws taken, under four settings</title>\n\
         <desc>Four panels with logarithmic axes. In each the messages of three streams, which \
         nearly coincide, lie below the allowance, and flatten as draws go on.</desc>\n\
         <rect width=\"1000\" height=\"740\" fill=\"white\"/>\n",
    );
    for (number, (k, c, e)) in SETTINGS.into_iter().enumerate() {
        let share = (2 * e).min(1000);
        let settings = Settings::from_numbers([k, e, share, 500, c, UNIVERSE]);
        let panel = Panel::new(number, allowance(&settings, MARKS[3]).unwrap());
        panel.frame(&mut svg, &format!("k {k}, c {c}, share {share} with leeway {e}"));
        let mut ends = Vec::new();
        let mut granted = Vec::new();
        for (stream, pen) in STREAMS.iter().zip(&PENS) {
            let points = count(&settings, stream);
            for mark in MARKS {
                let messages = at(&points, mark);
                writeln!(
                    table,
                    "| {k} | {c} | {e} | {stream} | {mark} | {messages} | {:.4} | {} |",
                    messages as f64 / mark as f64,
                    allowance(&settings, mark).unwrap()
                )
                .unwrap();
            }
            granted = points
                .iter()
                .map(|p| (p.0 as f64, allowance(&settings, p.0).unwrap() as f64))
                .collect();
            let drawn: Vec<(f64, f64)> = points.iter().map(|p| (p.0 as f64, p.1 as f64)).collect();
            ends.push((panel.line(&mut svg, &drawn, pen).1, *stream, pen));
        }
        ends.push((panel.line(&mut svg, &granted, &ALLOWANCE).1, "allowance", &ALLOWANCE));
        // One message a draw leaves a panel that is not so high by its upper edge.
        let top = 10f64.powi(2 + panel.decades).min(1e6);
        let end = panel.line(&mut svg, &[(100.0, 100.0), (top, top)], &ONE_EACH);
        if end.0 < panel.left + WIDE {
            text(&mut svg, end.0 + 8.0, end.1 + 16.0, "", "one a draw");
        } else {
            ends.push((end.1, "one a draw", &ONE_EACH));
        }
        panel.names(&mut svg, ends);
    }
    let note =
        "Both axes are logarithmic. Where lines run together the wider ones lie below, so that \
        none is hidden.";
    text(&mut svg, 16.0, 726.0, "font-size=\"13\"", note);
    svg.push_str("</svg>\n");
    std::fs::write(&paths[0], table).expect("the table's path can be written");
    std::fs::write(&paths[1], svg).expect("the plot's path can be written");
}
