//! The picture: an SVG of one run.

use crate::run::{Run, Times};
use crate::table::Table;
use std::fmt::Write;

const LEFT: u32 = 76;
const RIGHT: u32 = 74;
const TOP: u32 = 104;
const LANE: u32 = 46;
const WIDEST: u32 = 640;

const INK: &str = "#1f2933";
const FAINT_INK: &str = "#52606d";
const GRID: &str = "#e4e7eb";
const WINDOW: &str = "#eaf1f8";
const WINDOW_EDGE: &str = "#7b93ab";
const WAITS: &str = "#a9bccf";
const RUNS: &str = "#1d5b88";
const IDLE: &str = "#b45309";
const HELD: &str = "#a61b1b";

/// What is drawn, and the width of a tick.
struct Drawing<'a> {
    table: &'a Table,
    run: &'a Run,
    due: Option<&'a [u32]>,
    ticks: u32,
    tick: u32,
    svg: String,
}

pub fn svg(table: &Table, run: &Run, due: Option<&[u32]>, earliest: bool) -> String {
    let window_end = |job| due.map_or(table.last(job), |due| due[job - 1]);
    let ticks = (1..=table.jobs).map(window_end).max().unwrap_or(0).max(run.end).max(1);
    let tick = (WIDEST / ticks).clamp(3, 72);
    let mut drawing = Drawing { table, run, due, ticks, tick, svg: String::new() };
    drawing.frame(earliest);
    drawing.axis();
    for job in 1..=table.jobs {
        drawing.window(job, window_end(job));
    }
    drawing.held_lines();
    drawing.rip_lane();
    for job in 1..=table.jobs {
        drawing.waits_and_runs(job);
        drawing.window_label(job, window_end(job));
    }
    drawing.legend();
    drawing.svg + "</svg>\n"
}

impl Drawing<'_> {
    fn x(&self, tick: u32) -> u32 {
        LEFT + self.tick * tick
    }

    /// The middle of a lane: 0 the RIP's, then the jobs'.
    fn y(&self, lane: usize) -> u32 {
        TOP + LANE * lane as u32 + LANE / 2
    }

    fn bottom(&self) -> u32 {
        TOP + LANE * (self.table.jobs as u32 + 1)
    }

    fn put(&mut self, line: String) {
        self.svg.push_str(&line);
        self.svg.push('\n');
    }

    fn rect(&mut self, (x, y): (u32, u32), (width, height): (u32, u32), look: &str) {
        self.put(format!(r#"<rect x="{x}" y="{y}" width="{width}" height="{height}" {look}/>"#));
    }

    fn line(&mut self, (x1, y1): (u32, u32), (x2, y2): (u32, u32), look: &str) {
        self.put(format!(r#"<line x1="{x1}" y1="{y1}" x2="{x2}" y2="{y2}" {look}/>"#));
    }

    fn text(&mut self, (x, y): (u32, u32), look: &str, words: &str) {
        self.put(format!(r#"<text x="{x}" y="{y}" {look}>{words}</text>"#));
    }

    fn frame(&mut self, earliest: bool) {
        let width = (self.x(self.ticks) + RIGHT).max(LEFT + 560);
        let height = self.bottom() + 84;
        let (jobs, states) = (self.table.jobs, self.table.states());
        let which = if earliest {
            "Each job starts as early as the table allows and takes its most ticks."
        } else {
            "The events are the given ones."
        };
        let plural = if jobs == 1 { "" } else { "s" };
        self.put(format!(
            "<svg xmlns=\"http://www.w3.org/2000/svg\" width=\"{width}\" height=\"{height}\" \
             viewBox=\"0 0 {width} {height}\" role=\"img\" \
             font-family=\"system-ui, 'DejaVu Sans', Helvetica, Arial, sans-serif\" font-size=\"13\">"
        ));
        let told = self.told();
        self.put(format!(
            "<title>One run of a table of {jobs} job{plural}</title>\n<desc>{told}</desc>"
        ));
        self.put(format!(
            "<defs><pattern id=\"idle\" width=\"7\" height=\"7\" patternUnits=\"userSpaceOnUse\" \
             patternTransform=\"rotate(45)\"><rect width=\"7\" height=\"7\" fill=\"#fde8c8\"/>\
             <rect width=\"3\" height=\"7\" fill=\"{IDLE}\"/></pattern></defs>"
        ));
        self.rect((0, 0), (width, height), "fill=\"#ffffff\"");
        let title = format!("One run of the table: {jobs} job{plural}, {states} states");
        self.text(
            (24, 32),
            &format!("font-size=\"18\" font-weight=\"600\" fill=\"{INK}\""),
            &title,
        );
        self.text((24, 54), &format!("fill=\"{FAINT_INK}\""), which);
    }

    /// The run in words, for those who can't see it.
    fn told(&self) -> String {
        let mut words = String::new();
        let at = |tick: Option<u32>| tick.map_or("not yet".to_string(), |tick| tick.to_string());
        for (job, times) in (1..).zip(&self.run.times) {
            let (arrived, started, ended) = (at(times.arrived), at(times.started), at(times.ended));
            write!(words, "Job {job}: arrives {arrived}, starts {started}, ends {ended}. ")
                .expect("text");
        }
        words.trim_end().to_string()
    }

    /// As many ticks have a line and a number as there is room for.
    fn axis(&mut self) {
        let step =
            [1, 2, 5, 10, 20, 50].into_iter().find(|step| step * self.tick >= 26).unwrap_or(50);
        self.text((24, TOP - 20), &format!("fill=\"{FAINT_INK}\""), "tick");
        for tick in 0..=self.ticks {
            let x = self.x(tick);
            if tick % step == 0 || self.tick >= 10 {
                self.line((x, TOP - 6), (x, self.bottom()), &format!("stroke=\"{GRID}\""));
            }
            if tick % step == 0 {
                let look = format!("text-anchor=\"middle\" fill=\"{INK}\"");
                self.text((x, TOP - 20), &look, &tick.to_string());
            }
        }
    }

    fn held_lines(&mut self) {
        for tick in self.run.held.clone() {
            let x = self.x(tick);
            let look = format!("stroke=\"{HELD}\" stroke-width=\"2\" stroke-dasharray=\"5 4\"");
            self.line((x, TOP - 4), (x, self.bottom()), &look);
            self.diamond(x, TOP - 3);
        }
    }

    fn diamond(&mut self, x: u32, y: u32) {
        self.put(format!("<path d=\"M{x} {y} l5 -5 l-5 -5 l-5 5 z\" fill=\"{HELD}\"/>"));
    }

    fn label(&mut self, lane: usize, words: &str) {
        let at = (24, self.y(lane) + 5);
        self.text(at, &format!("font-weight=\"600\" fill=\"{INK}\""), words);
    }

    fn rip_lane(&mut self) {
        self.label(0, "RIP");
        let (y, end) = (self.y(0), self.x(self.run.end));
        self.line(
            (self.x(0), y),
            (end, y),
            &format!("stroke=\"{WINDOW_EDGE}\" stroke-width=\"2\""),
        );
        for tick in self.run.kept_idle.clone() {
            self.rect((self.x(tick), y - 6), (self.tick, 12), "fill=\"url(#idle)\"");
        }
        for (job, times) in (1..).zip(self.run.times.clone()) {
            self.running(0, &times, &format!("job {job}"), &job.to_string());
        }
        let below = self.y(0) + LANE / 2;
        self.line((24, below), (self.x(self.ticks), below), &format!("stroke=\"{WINDOW_EDGE}\""));
    }

    fn window(&mut self, job: usize, window_end: u32) {
        self.label(job, &format!("Job {job}"));
        let (y, arrival) = (self.y(job), self.table.arrival(job));
        let size = (self.tick * (window_end - arrival), 32);
        let look = format!("rx=\"4\" fill=\"{WINDOW}\" stroke=\"{WINDOW_EDGE}\"");
        self.rect((self.x(arrival), y - 16), size, &look);
    }

    /// When the window ends, with a white edge so that no line runs through it.
    fn window_label(&mut self, job: usize, window_end: u32) {
        let words = if self.due.is_some() { "due" } else { "by" };
        let at = (self.x(window_end) + 6, self.y(job) + 5);
        let edge = "stroke=\"#ffffff\" stroke-width=\"5\" paint-order=\"stroke\"";
        let words = format!("{words} {window_end}");
        self.text(at, &format!("fill=\"{FAINT_INK}\" {edge}"), &words);
    }

    fn waits_and_runs(&mut self, job: usize) {
        let times = self.run.times[job - 1].clone();
        if let Some(arrived) = times.arrived {
            self.waiting(self.y(job), arrived, times.started.unwrap_or(self.run.end));
        }
        let started = times.started.unwrap_or(self.run.end);
        let ticks = times.ended.unwrap_or(self.run.end) - started;
        let long = if ticks == 1 { "1 tick".to_string() } else { format!("{ticks} ticks") };
        self.running(job, &times, &long, &ticks.to_string());
    }

    fn waiting(&mut self, y: u32, from: u32, to: u32) {
        for tick in from..to {
            let look = if self.run.kept_idle.contains(&tick) { "url(#idle)" } else { WAITS };
            self.rect((self.x(tick), y - 6), (self.tick, 12), &format!("fill=\"{look}\""));
        }
    }

    /// The longer words where there is room for them.
    fn running(&mut self, lane: usize, times: &Times, long: &str, short: &str) {
        let from = match times.started {
            Some(from) => from,
            None => return,
        };
        let to = times.ended.unwrap_or(self.run.end);
        let (y, width) = (self.y(lane), self.tick * (to - from));
        let edge = if width >= 8 { "stroke=\"#ffffff\"" } else { "" };
        let look = format!("rx=\"3\" fill=\"{RUNS}\" {edge}");
        self.rect((self.x(from), y - 12), (width, 24), &look);
        if width >= 12 {
            let words = if width >= 56 { long } else { short };
            let look = "text-anchor=\"middle\" font-weight=\"600\" fill=\"#ffffff\"";
            self.text((self.x(from) + width / 2, y + 5), look, words);
        }
    }

    fn legend(&mut self) {
        let (first, second) = (self.bottom() + 30, self.bottom() + 58);
        let end = if self.due.is_some() { "due" } else { "the last tick it can take" };
        self.rect(
            (24, first - 11),
            (26, 14),
            &format!("rx=\"3\" fill=\"{WINDOW}\" stroke=\"{WINDOW_EDGE}\""),
        );
        self.entry(58, first, &format!("window, from arrival to {end}"));
        self.rect((324, first - 11), (26, 14), &format!("rx=\"3\" fill=\"{RUNS}\""));
        self.entry(358, first, "runs");
        self.rect((400, first - 9), (26, 10), &format!("fill=\"{WAITS}\""));
        self.entry(434, first, "waits");
        self.rect((24, second - 9), (26, 10), "fill=\"url(#idle)\"");
        self.entry(58, second, "waits, RIP kept idle: no start is safe");
        let look = format!("stroke=\"{HELD}\" stroke-width=\"2\" stroke-dasharray=\"5 4\"");
        self.line((337, second - 11), (337, second + 5), &look);
        self.diamond(337, second - 5);
        self.entry(358, second, "tick held: a start is forced here");
    }

    fn entry(&mut self, x: u32, y: u32, words: &str) {
        self.text((x, y), &format!("fill=\"{INK}\""), words);
    }
}
