//! Line plots as SVG.

use std::fmt::Write;

use yarnspire::figures::{figure, grouped};

#[derive(Clone, Copy)]
pub struct Style {
    pub name: &'static str,
    pub colour: &'static str,
    pub mark: Mark,
}

#[derive(Clone, Copy)]
pub enum Mark {
    Ring,
    Circle,
    Diamond,
    Square,
    Triangle,
}

pub struct Line {
    pub style: Style,
    pub points: Vec<(f64, f64)>,
}

impl Line {
    /// Where the points lie in a panel.
    fn places(&self, frame: Frame, x: &Axis, y: &Axis) -> Vec<(f64, f64)> {
        self.points.iter().map(|&(a, b)| (frame.across(x.share(a)), frame.up(y.share(b)))).collect()
    }
}

pub struct Axis {
    label: &'static str,
    low: f64,
    high: f64,
    ticks: Vec<f64>,
    logarithmic: bool,
}

impl Axis {
    pub fn logarithmic(label: &'static str, low: f64, high: f64, ticks: Vec<f64>) -> Axis {
        Axis { label, low, high, ticks, logarithmic: true }
    }

    /// From the power of ten below the least value to the one above the greatest.
    pub fn decades(label: &'static str, values: &[f64]) -> Axis {
        let low = values.iter().copied().fold(f64::INFINITY, f64::min).log10().floor() as i32;
        let high = values.iter().copied().fold(0.0, f64::max).log10().ceil() as i32;
        Axis::logarithmic(label, 10f64.powi(low), 10f64.powi(high), (low..=high).map(|power| 10f64.powi(power)).collect())
    }

    /// From 0 to a round number above the greatest value, in four to ten steps of 1, 2 or 5 times a power of ten.
    pub fn linear(label: &'static str, values: &[f64]) -> Axis {
        let greatest = values.iter().copied().fold(0.0, f64::max);
        let power = 10f64.powf((greatest / 4.0).log10().floor());
        let step = [5.0, 2.0, 1.0].map(|times| times * power).into_iter().find(|step| greatest / step >= 4.0).unwrap_or(power);
        let count = (greatest / step).ceil() as usize;
        let ticks: Vec<f64> = (0..=count).map(|i| step * i as f64).collect();
        Axis { label, low: 0.0, high: step * count as f64, ticks, logarithmic: false }
    }

    /// Where a value lies, from 0 at the low end to 1 at the high one.
    fn share(&self, value: f64) -> f64 {
        match self.logarithmic {
            true => (value / self.low).ln() / (self.high / self.low).ln(),
            false => (value - self.low) / (self.high - self.low),
        }
    }
}

/// Where a panel's two axes run.
#[derive(Clone, Copy)]
pub struct Frame {
    pub left: f64,
    pub top: f64,
    pub width: f64,
    pub height: f64,
}

impl Frame {
    fn across(&self, share: f64) -> f64 {
        self.left + self.width * share
    }
    fn up(&self, share: f64) -> f64 {
        self.top + self.height * (1.0 - share)
    }
}

/// An SVG picture under way.
pub struct Picture {
    text: String,
}

impl Picture {
    pub fn new(width: f64, height: f64, title: &str, under: &str) -> Picture {
        let mut text = format!(
            "<svg xmlns=\"http://www.w3.org/2000/svg\" viewBox=\"0 0 {width} {height}\" width=\"{width}\" height=\"{height}\" \
             font-family=\"Helvetica, Arial, 'DejaVu Sans', sans-serif\" font-size=\"13\" fill=\"#222\">\n\
             <rect width=\"{width}\" height=\"{height}\" fill=\"#fff\"/>\n"
        );
        let _ = writeln!(text, "<text x=\"20\" y=\"32\" font-size=\"18\" font-weight=\"bold\">{title}</text>");
        let _ = writeln!(text, "<text x=\"20\" y=\"53\" fill=\"#555\">{under}</text>");
        Picture { text }
    }

    pub fn end(mut self) -> String {
        self.text.push_str("</svg>\n");
        self.text
    }

    fn put(&mut self, element: std::fmt::Arguments) {
        self.text.write_fmt(element).expect("text grows");
        self.text.push('\n');
    }

    pub fn panel(&mut self, title: &str, frame: Frame, x: &Axis, y: &Axis, lines: &[Line]) {
        self.put(format_args!("<text x=\"{}\" y=\"{}\" font-size=\"14\" font-weight=\"bold\">{title}</text>", frame.left, frame.top - 10.0));
        self.upward_axis(frame, y);
        self.rightward_axis(frame, x);
        for line in lines {
            self.line(line.style, &line.places(frame, x, y));
        }
    }

    /// Writes every value above its mark.
    pub fn all_values(&mut self, frame: Frame, x: &Axis, y: &Axis, lines: &[Line]) {
        let most = lines.iter().map(|line| line.points.len()).max().unwrap_or(0);
        for i in 0..most {
            let at = |line: &Line| Some((line.style, *line.places(frame, x, y).get(i)?, line.points.get(i)?.1));
            self.values(lines.iter().filter_map(at).collect(), (0.0, -10.0), "middle");
        }
    }

    /// Writes the last value of each line to the right of its mark.
    pub fn last_values(&mut self, frame: Frame, x: &Axis, y: &Axis, lines: &[Line]) {
        let last = |line: &Line| Some((line.style, *line.places(frame, x, y).last()?, line.points.last()?.1));
        self.values(lines.iter().filter_map(last).collect(), (9.0, 4.0), "start");
    }

    /// Writes values beside their marks, so far to the right and so far down, from the lowest up, each clear of the one below.
    fn values(&mut self, mut values: Vec<(Style, (f64, f64), f64)>, (right, down): (f64, f64), anchor: &str) {
        values.sort_by(|(_, (_, a), _), (_, (_, b), _)| b.total_cmp(a));
        let mut clear = f64::INFINITY;
        for (style, (left, top), value) in values {
            let top = clear.min(top + down);
            self.value(style, (left + right, top), anchor, value);
            clear = top - 12.0;
        }
    }

    fn upward_axis(&mut self, frame: Frame, axis: &Axis) {
        let (left, right) = (frame.left, frame.left + frame.width);
        for &tick in &axis.ticks {
            let y = frame.up(axis.share(tick));
            self.put(format_args!("<line x1=\"{left}\" y1=\"{y:.1}\" x2=\"{right}\" y2=\"{y:.1}\" stroke=\"#ddd\"/>"));
            let (x, y, label) = (left - 7.0, y + 4.0, tick_label(tick));
            self.put(format_args!("<text x=\"{x}\" y=\"{y:.1}\" text-anchor=\"end\" font-size=\"12\">{label}</text>"));
        }
        let turned = format!("translate({} {}) rotate(-90)", left - 42.0, frame.up(0.5));
        self.put(format_args!("<text transform=\"{turned}\" text-anchor=\"middle\" fill=\"#555\">{}</text>", axis.label));
    }

    fn rightward_axis(&mut self, frame: Frame, axis: &Axis) {
        let (left, right, bottom) = (frame.left, frame.left + frame.width, frame.up(0.0));
        self.put(format_args!("<line x1=\"{left}\" y1=\"{bottom}\" x2=\"{right}\" y2=\"{bottom}\" stroke=\"#555\"/>"));
        for &tick in &axis.ticks {
            let x = frame.across(axis.share(tick));
            self.put(format_args!("<line x1=\"{x:.1}\" y1=\"{bottom}\" x2=\"{x:.1}\" y2=\"{}\" stroke=\"#555\"/>", bottom + 5.0));
            let (y, label) = (bottom + 19.0, tick_label(tick));
            self.put(format_args!("<text x=\"{x:.1}\" y=\"{y}\" text-anchor=\"middle\" font-size=\"12\">{label}</text>"));
        }
        let (x, y) = (frame.across(0.5), bottom + 38.0);
        self.put(format_args!("<text x=\"{x}\" y=\"{y}\" text-anchor=\"middle\" fill=\"#555\">{}</text>", axis.label));
    }

    fn value(&mut self, style: Style, (x, y): (f64, f64), anchor: &str, value: f64) {
        let (colour, text) = (style.colour, figure(value));
        self.put(format_args!("<text x=\"{x:.1}\" y=\"{y:.1}\" text-anchor=\"{anchor}\" font-size=\"12\" fill=\"{colour}\">{text}</text>"));
    }

    fn line(&mut self, style: Style, places: &[(f64, f64)]) {
        let path: Vec<String> = places.iter().map(|(x, y)| format!("{x:.1},{y:.1}")).collect();
        self.put(format_args!("<polyline points=\"{}\" fill=\"none\" stroke=\"{}\" stroke-width=\"2\"/>", path.join(" "), style.colour));
        for &place in places {
            self.mark(style, place);
        }
    }

    fn mark(&mut self, style: Style, (x, y): (f64, f64)) {
        let colour = style.colour;
        match style.mark {
            Mark::Ring => self.put(format_args!("<circle cx=\"{x:.1}\" cy=\"{y:.1}\" r=\"4.5\" fill=\"#fff\" stroke=\"{colour}\" stroke-width=\"2\"/>")),
            Mark::Circle => self.put(format_args!("<circle cx=\"{x:.1}\" cy=\"{y:.1}\" r=\"4.5\" fill=\"{colour}\"/>")),
            Mark::Diamond => self.put(format_args!("<path d=\"M{x:.1} {:.1} l5.5 5.5 l-5.5 5.5 l-5.5 -5.5 z\" fill=\"{colour}\"/>", y - 5.5)),
            Mark::Square => self.put(format_args!("<rect x=\"{:.1}\" y=\"{:.1}\" width=\"8\" height=\"8\" fill=\"{colour}\"/>", x - 4.0, y - 4.0)),
            Mark::Triangle => self.put(format_args!("<path d=\"M{x:.1} {:.1} l5 9 h-10 z\" fill=\"{colour}\"/>", y - 5.5)),
        }
    }

    pub fn legend(&mut self, (left, top): (f64, f64), styles: &[Style]) {
        for (i, &style) in styles.iter().enumerate() {
            let y = top + 28.0 * i as f64;
            self.line(style, &[(left, y), (left + 22.0, y), (left + 44.0, y)]);
            self.put(format_args!("<text x=\"{:.1}\" y=\"{:.1}\" font-size=\"14\">{}</text>", left + 56.0, y + 5.0, style.name));
        }
    }
}

fn tick_label(value: f64) -> String {
    if value >= 1.0 {
        return grouped(value.round() as usize);
    }
    format!("{value}")
}
