//! `threads SECONDS THINGS FILE..`: eight threads open, clone, search and drop graphs at random, for
//! tests/test_rust_threads.py. Each ends after so many seconds, or when it has done so many things.
//!
//! Each answer is compared with the one that a single thread got before. Prints how many things were done, how many graphs
//! were opened, how many answers were wrong, and how many owners of bytes are left in the end.

use std::env;
use std::error::Error;
use std::fs;
use std::hash::{DefaultHasher, Hash, Hasher};
use std::sync::atomic::{AtomicU64, Ordering::SeqCst};
use std::sync::{Arc, Mutex};
use std::thread;
use std::time::{Duration, Instant};

use tickmarl_hdt::{Graph, Pattern, Role};

const THREADS: u64 = 8;
const TABLE: usize = 6;
const QUESTIONS: u64 = 200;

/// The bytes of a file, which overwrite themselves when they are dropped, and how many of such are left.
struct Owner {
    bytes: Vec<u8>,
    left: Arc<AtomicU64>,
}

impl AsRef<[u8]> for Owner {
    fn as_ref(&self) -> &[u8] {
        &self.bytes
    }
}

impl Drop for Owner {
    fn drop(&mut self) {
        self.bytes.fill(0xFF);
        self.left.fetch_sub(1, SeqCst);
    }
}

/// A file, and the answers of its graph.
struct File {
    bytes: Vec<u8>,
    answers: Vec<u64>,
}

impl File {
    fn read(path: &String) -> Result<File, Box<dyn Error>> {
        let bytes = fs::read(path)?;
        let graph = Graph::open(&bytes)?;
        let answers = (0..QUESTIONS).map(|question| answer(&graph, question)).collect();
        drop(graph);
        Ok(File { bytes, answers })
    }
}

/// What the threads share.
struct World {
    files: Vec<File>,
    /// Graphs, and the indexes of their files.
    table: Mutex<Vec<Option<(usize, Graph<'static>)>>>,
    left: Arc<AtomicU64>,
    opened: AtomicU64,
    wrong: AtomicU64,
}

fn main() -> Result<(), Box<dyn Error>> {
    let arguments: Vec<String> = env::args().skip(1).collect();
    let (length, most) = (Duration::from_secs_f64(arguments[0].parse()?), arguments[1].parse()?);
    let world = World {
        files: arguments[2..].iter().map(File::read).collect::<Result<_, _>>()?,
        table: Mutex::new((0..TABLE).map(|_| None).collect()),
        left: Arc::default(),
        opened: AtomicU64::new(0),
        wrong: AtomicU64::new(0),
    };
    let done: u64 = thread::scope(|scope| {
        let (world, until) = (&world, Instant::now() + length);
        let running: Vec<_> = (1..=THREADS).map(|seed| scope.spawn(move || act(world, seed, until, most))).collect();
        running.into_iter().map(|thread| thread.join().expect("no thread panics")).sum()
    });
    world.table.lock().expect("no thread panics").clear();
    let [opened, wrong, left] = [&world.opened, &world.wrong, &*world.left].map(|count| count.load(SeqCst));
    Ok(println!("{done} things, {opened} graphs, {wrong} wrong, {left} owners left"))
}

/// Does things at random until a time, at most so many, and returns how many.
fn act(world: &World, mut seed: u64, until: Instant, most: u64) -> u64 {
    let mut own: Option<(usize, Graph<'static>)> = None;
    let mut draw = |below: usize| {
        seed = seed.wrapping_mul(6_364_136_223_846_793_005).wrapping_add(1_442_695_040_888_963_407);
        (seed >> 33) as usize % below
    };
    let mut things = 0;
    while things < most && Instant::now() < until {
        let (file, at) = (draw(world.files.len()), draw(TABLE));
        let found = |table: &mut Vec<Option<(usize, Graph<'static>)>>| table[at].clone();
        match draw(12) {
            0 => own = Some((file, open(world, file))),
            1 => world.table.lock().expect("no thread panics")[at] = own.clone(),
            2 => drop(own.take()),
            3 | 4 => own = found(&mut world.table.lock().expect("no thread panics")),
            _ => {}
        }
        if let Some((file, graph)) = &own {
            for _ in 0..4 {
                let question = draw(QUESTIONS as usize);
                let is_right = answer(graph, question as u64) == world.files[*file].answers[question];
                world.wrong.fetch_add(u64::from(!is_right), SeqCst);
            }
        }
        things += 1;
    }
    things
}

/// A graph that has a copy of the bytes of a file.
fn open(world: &World, file: usize) -> Graph<'static> {
    world.left.fetch_add(1, SeqCst);
    world.opened.fetch_add(1, SeqCst);
    let owner = Owner { bytes: world.files[file].bytes.clone(), left: world.left.clone() };
    Graph::from_bytes(owner).expect("the file was opened before")
}

/// A number that stands for the answer to a question: a call and an ID.
fn answer(graph: &Graph<'_>, question: u64) -> u64 {
    let mut hasher = DefaultHasher::new();
    let number = question * 7_919;
    let id = |role| number % graph.count(role) + 1;
    let (subject, predicate, object) = (id(Role::Subject), id(Role::Predicate), id(Role::Object));
    let of_subject = Pattern::any().subject_id(subject);
    match question % 10 {
        0 => graph.find(of_subject).take(70).for_each(|triple| triple.hash(&mut hasher)),
        1 => graph.matching(Pattern::any().object_id(object)).hash(&mut hasher),
        2 => graph.string(Role::Object, object).hash(&mut hasher),
        3 => graph.page_text(of_subject, 0, 20).map(|(text, next)| (text.to_vec(), next)).hash(&mut hasher),
        4 => {
            let page = graph.page(Pattern::any().predicate_id(predicate), number % graph.len(), 20);
            page.map(|page| (page.triples, page.next)).hash(&mut hasher);
        }
        5 => {
            let string = graph.string(Role::Subject, subject).ok().flatten().unwrap_or_default();
            (graph.id(Role::Subject, &string) == Some(subject)).hash(&mut hasher);
        }
        6 => {
            let strings = graph.strings(Role::Subject, &[subject, subject]);
            strings.map(|found| found.map(|it| it.iter().collect::<String>())).hash(&mut hasher);
        }
        7 => graph.predicate_counts().hash(&mut hasher),
        8 => graph.text(Pattern::any().object_id(object)).map(|text| text.to_vec()).hash(&mut hasher),
        _ => graph.header().hash(&mut hasher),
    }
    hasher.finish()
}
