//! `speed_threads FILE [SECONDS]`: how fast 1, 2 and 4 threads search an open HDT file at the same time, as rows of a
//! table in Markdown. `cargo run --release --example speed_threads FILE`
//!
//! A rate is that of the moments in which all threads ran, so other programs on the machine matter little: each thread
//! notes the time after each batch of work, and one that takes four times as long as is usual was interrupted. The rows take
//! turns, in rounds; each of them runs for so many seconds in all, 2 if none are given.

use std::error::Error;
use std::sync::atomic::{AtomicBool, Ordering};
use std::time::{Duration, Instant};
use std::{env, fs, thread};

use tickmarl_hdt::{Graph, Pattern, Role};

const MOST_BATCHES: usize = 1 << 19;
const SUBJECTS: u64 = 16;
const LINES: u64 = 50;
const ROUNDS: u32 = 10;

/// What the threads of a row have.
#[derive(Clone, Copy, PartialEq, Eq)]
enum Way {
    Shared,
    Clones,
    Opened,
}

impl Way {
    const ALL: [Way; 3] = [Way::Shared, Way::Clones, Way::Opened];

    fn name(self) -> &'static str {
        match self {
            Way::Shared => "one graph",
            Way::Clones => "a clone each",
            Way::Opened => "a graph each",
        }
    }
}

/// What a thread did: when it began and when each batch ended, in nanoseconds, and how much it did.
#[derive(Default)]
struct Log {
    times: Vec<u64>,
    done: u64,
}

/// A thread's place in its work.
struct Place {
    seed: u64,
    next: u64,
}

/// Work on a graph, which returns how much was done.
type Work = fn(&Graph<'_>, &mut Place) -> u64;

/// Pages of subjects that are drawn.
fn pages(graph: &Graph<'_>, place: &mut Place) -> u64 {
    for _ in 0..SUBJECTS {
        place.seed = place.seed.wrapping_mul(6_364_136_223_846_793_005).wrapping_add(1_442_695_040_888_963_407);
        let subject = (place.seed >> 33) % graph.count(Role::Subject) + 1;
        graph.page(Pattern::any().subject_id(subject), 0, 16).expect("there is memory");
    }
    SUBJECTS
}

/// The next lines of the text of all triples.
fn text(graph: &Graph<'_>, place: &mut Place) -> u64 {
    let (from, len) = (place.next, graph.len());
    let (_, next) = graph.page_text(Pattern::any(), from, LINES).expect("there is memory, and the strings are terms");
    place.next = next.unwrap_or(0);
    next.unwrap_or(len) - from
}

/// The cheapest call.
fn lengths(graph: &Graph<'_>, _: &mut Place) -> u64 {
    let calls = 64 * SUBJECTS;
    (0..calls).map(|_| graph.len().min(1)).sum()
}

/// The usual time of a batch: the median.
fn usual(log: &Log) -> u64 {
    let mut spans: Vec<u64> = log.times.windows(2).map(|pair| pair[1] - pair[0]).collect();
    spans.sort_unstable();
    spans.get(spans.len() / 2).copied().unwrap_or(0)
}

/// How long all threads ran at once, in nanoseconds, and what they did then.
#[derive(Clone, Copy, Default)]
struct Moments {
    span: f64,
    made: f64,
}

impl Moments {
    fn add(&mut self, logs: &[Log]) {
        let mut events: Vec<(u64, i64, f64)> = Vec::new();
        for log in logs {
            let (longest, batches) = (4 * usual(log), log.times.len().saturating_sub(1).max(1));
            for pair in log.times.windows(2).filter(|pair| pair[1] > pair[0] && pair[1] - pair[0] < longest) {
                let rate = log.done as f64 / batches as f64 / (pair[1] - pair[0]) as f64;
                events.extend([(pair[0], 1, rate), (pair[1], -1, -rate)]);
            }
        }
        events.sort_by_key(|event| event.0);
        let (mut running, mut rate) = (0, 0.0);
        for pair in events.windows(2) {
            running += pair[0].1;
            rate += pair[0].2;
            if running == logs.len() as i64 {
                self.span += (pair[1].0 - pair[0].0) as f64;
                self.made += rate * (pair[1].0 - pair[0].0) as f64;
            }
        }
    }

    /// What was done a second, if all threads ever ran at once.
    fn rate(&self) -> Option<f64> {
        (self.span > 0.0).then(|| 1e9 * self.made / self.span)
    }
}

/// Runs threads for a time, and returns what they did.
fn logs(bytes: &[u8], graph: &Graph<'_>, work: Work, way: Way, threads: usize, length: Duration) -> Vec<Log> {
    let (stop, began) = (AtomicBool::new(false), Instant::now());
    let nanos = || began.elapsed().as_nanos() as u64;
    let run = |number: u64| {
        let opened = (way == Way::Opened).then(|| Graph::open(bytes).expect("it was opened before"));
        let cloned = (way == Way::Clones).then(|| graph.clone());
        let own = opened.as_ref().or(cloned.as_ref()).unwrap_or(graph);
        let mut place = Place { seed: number + 1, next: graph.len() / threads as u64 * number };
        let mut log = Log { times: Vec::with_capacity(MOST_BATCHES), done: 0 };
        log.times.push(nanos());
        while !stop.load(Ordering::Relaxed) && log.times.len() < MOST_BATCHES {
            log.done += work(own, &mut place);
            log.times.push(nanos());
        }
        log
    };
    thread::scope(|scope| {
        let run = &run;
        let running: Vec<_> = (0..threads as u64).map(|number| scope.spawn(move || run(number))).collect();
        thread::sleep(length);
        stop.store(true, Ordering::Relaxed);
        running.into_iter().map(|thread| thread.join().expect("no thread panics")).collect()
    })
}

fn main() -> Result<(), Box<dyn Error>> {
    let arguments: Vec<String> = env::args().collect();
    let path = arguments.get(1).ok_or("usage: speed_threads FILE [SECONDS]")?;
    let length = Duration::from_secs_f64(arguments.get(2).map_or(Ok(2.0), |given| given.parse())?);
    let bytes = fs::read(path)?;
    let graph = Graph::open(&bytes)?;
    println!("| work | threads have | threads | a second | of one |\n|---|---|---|---|---|");
    let works: [(&str, Work); 3] = [("pages of a subject", pages), ("text of all, lines", text), ("`len`", lengths)];
    for (name, work) in works {
        let mut rows: Vec<(Way, usize, Moments)> =
            [1, 2].map(|threads| (Way::Shared, threads, Moments::default())).into();
        rows.extend(Way::ALL.map(|way| (way, 4, Moments::default())));
        for _ in 0..ROUNDS {
            for (way, threads, moments) in &mut rows {
                moments.add(&logs(&bytes, &graph, work, *way, *threads, length / ROUNDS));
            }
        }
        let one = rows[0].2.rate();
        for (way, threads, moments) in &rows {
            let cells = match (moments.rate(), one) {
                (Some(found), Some(one)) => format!("{found:.0} | {:.2}", found / one),
                _ => "- | -".to_owned(), // (they never ran all at once: give it more seconds)
            };
            println!("| {name} | {} | {threads} | {cells} |", way.name());
        }
    }
    Ok(())
}
