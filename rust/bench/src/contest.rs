//! Two sides that do the same work, and how long each takes.

use std::time::{Duration, Instant};

/// A measurement is no shorter than this.
const LEAST: Duration = Duration::from_millis(20);

pub type Side = Box<dyn FnMut()>;

/// How a figure is told.
#[derive(Clone, Copy)]
pub enum Unit {
    /// Nanoseconds for one of the loop's items.
    Nanoseconds(&'static str),
    /// Millions of the loop's items, which are bytes, a second.
    Megabytes,
}

pub struct Contest {
    pub unit: Unit,
    /// What one loop of either side does, in items.
    pub items: usize,
    pub library: Side,
    pub plain: Side,
    /// Whether both sides answer the same, byte for byte; never timed.
    pub agree: Box<dyn FnMut() -> bool>,
    pub note: String,
}

pub struct Result {
    /// Nanoseconds an item.
    pub library: f64,
    pub plain: f64,
    pub ratio: f64,
    pub least: f64,
    pub greatest: f64,
    /// The share of the time on the clock in which this process ran, where the machine tells. Pauses fall on one side
    /// of one pair: with a low share, least and greatest say little.
    pub on_cpu: Option<f64>,
}

/// Seconds of processor time that this process has used, in hundredths: fields 14 and 15 of Linux's `stat`.
fn cpu_seconds() -> Option<f64> {
    let text = std::fs::read_to_string("/proc/self/stat").ok()?;
    // The name, in parentheses, may have spaces in it.
    let (_, after_name) = text.rsplit_once(')')?;
    let hundredths: Vec<f64> = after_name.split_whitespace().skip(11).take(2).flat_map(str::parse).collect();
    (hundredths.len() == 2).then(|| hundredths.iter().sum::<f64>() / 100.0)
}

fn timed(side: &mut Side, loops: u32) -> Duration {
    let start = Instant::now();
    for _ in 0..loops {
        side();
    }
    start.elapsed()
}

/// As many loops as the least time takes, and a quarter more.
fn loops_of(side: &mut Side) -> u32 {
    let mut loops = 1;
    loop {
        let took = timed(side, loops);
        if took >= LEAST {
            return loops + loops / 4;
        }
        let missing = LEAST.as_secs_f64() / took.as_secs_f64().max(1e-9);
        loops = (loops as f64 * missing.clamp(1.1, 100.0)).ceil() as u32;
    }
}

fn median(figures: &[f64]) -> f64 {
    let mut sorted = figures.to_vec();
    sorted.sort_by(f64::total_cmp);
    let middle = sorted.len() / 2;
    if sorted.len().is_multiple_of(2) {
        (sorted[middle - 1] + sorted[middle]) / 2.0
    } else {
        sorted[middle]
    }
}

impl Contest {
    /// Library, plain, library, plain ..: whatever else the machine does falls on both.
    pub fn measure(&mut self, runs: usize) -> Result {
        let (library_loops, plain_loops) = (loops_of(&mut self.library), loops_of(&mut self.plain));
        let each = |took: Duration, loops: u32, items: usize| took.as_nanos() as f64 / (loops as f64 * items as f64);
        let (mut library, mut plain) = (Vec::new(), Vec::new());
        let (start, cpu) = (Instant::now(), cpu_seconds());
        for _ in 0..runs.max(1) {
            library.push(each(timed(&mut self.library, library_loops), library_loops, self.items));
            plain.push(each(timed(&mut self.plain, plain_loops), plain_loops, self.items));
        }
        let on_cpu = cpu.zip(cpu_seconds()).map(|(before, after)| (after - before) / start.elapsed().as_secs_f64());
        let ratios: Vec<f64> = library.iter().zip(&plain).map(|(a, b)| a / b).collect();
        let (library, plain) = (median(&library), median(&plain));
        Result {
            library,
            plain,
            ratio: library / plain,
            least: ratios.iter().copied().fold(f64::MAX, f64::min),
            greatest: ratios.iter().copied().fold(0.0, f64::max),
            on_cpu,
        }
    }
}

impl Unit {
    /// A figure of so many nanoseconds an item, in this unit.
    pub fn told(self, nanoseconds: f64) -> String {
        match self {
            Unit::Nanoseconds(_) => format!("{nanoseconds:.2}"),
            Unit::Megabytes => format!("{:.1}", 1000.0 / nanoseconds),
        }
    }

    pub fn name(self) -> String {
        match self {
            Unit::Nanoseconds(item) => format!("ns a {item}"),
            Unit::Megabytes => "MB/s".to_string(),
        }
    }
}
