//! Times the proved heap, as `heap_replay` of libreplay.a, against twin's heap on the same calls.
//!
//! Built with DIR for what is built here and LIBDIR for the directory of libreplay.a:
//!
//!     rustc --edition 2021 -O --crate-type rlib --crate-name twin -o DIR/libtwin.rlib twin/src/lib.rs
//!     rustc --edition 2021 -O --extern twin=DIR/libtwin.rlib -L native=LIBDIR -l static=replay -o DIR/bench_heap twin/bench_heap.rs
//!
//! Each work is a prefix of calls, which fills all regions but one with objects, and a body. The
//! time of a call is that of prefix and body less that of the prefix, divided by the calls of the
//! body; of each, the best of many runs counts. Answers, fills and words of both sides are compared
//! in every run. It prints a line for each work and size. Run as `bench_heap [WORK] [SIDE]` it runs
//! the works whose names start so, and one side only (proved or twin), for profilers.

use std::env;
use std::time::{Duration, Instant};

use twin::calls::{Call, Edits, BEGIN, COPY, GET, MARK, NEW, REFINE, SET};
use twin::heap::{place_of, Heap, Refining, Scanning, MOST_REGIONS, REGION};
use twin::image::NIL;
use twin::layouts::Counted;
use twin::random::Random;
use twin::replay::replay;
use twin::stores::WordStore;

unsafe extern "C" {
    fn heap_replay(
        layout: u32,
        calls: *const u32,
        calls_len: usize,
        words: *mut u32,
        words_len: usize,
        answers: *mut u32,
        answers_len: usize,
        fills: *mut u32,
        fills_len: usize,
    ) -> u64;
}

/// The regions of the stores, one more than objects lie in.
const SIZES: [usize; 4] = [2, 5, 17, MOST_REGIONS];
const SEED: u64 = 1;
/// The sets of a body.
const SETS: usize = 20_000;
/// Each side of a work runs at least so often and so long.
const LEAST_RUNS: usize = 15;
const LEAST_TIME: Duration = Duration::from_millis(250);
/// The sign of the counted layout.
const COUNTED: u32 = 1;
/// The root at which objects are made; the roots below hold the graph.
const MAKER: u32 = 63;

/// Headers as of a room, a rack, a panel, a port, a cable and a label: so many references, and
/// plain words above.
const HEADERS: [u32; 6] = [
    2 | 1 << 8,
    3 | 1 << 8,
    2 | 2 << 8,
    1 | 3 << 8,
    2 | 3 << 8,
    2 << 8,
];

/// Calls on a heap that runs them as they are written.
struct Written {
    calls: Vec<Call>,
    heap: Heap<Counted, WordStore>,
}

impl Written {
    /// A graph in all regions but one. The roots hold chains: an object refers to the one made
    /// before it at the same root, by position 1, and by other positions to objects of other roots.
    /// An object without references is referred to by the object at a root.
    fn graph(regions: usize) -> Self {
        let mut written = Written {
            calls: Vec::new(),
            heap: Heap::new(WordStore::new(vec![0; regions * REGION])),
        };
        let mut random = Random::new(SEED);
        let mut any_root = || random.below(MAKER as usize) as u32;
        for made in 0.. {
            let header = HEADERS[made % HEADERS.len()];
            let new = [NEW, MAKER, header, 0];
            if written.heap.new_object(MAKER, header).is_err() {
                break;
            }
            written.calls.push(new);
            let any = any_root();
            if header % 256 == 0 {
                let root = written.root_from(any, |references| references >= Some(2));
                written.add([SET, root, 2, MAKER]);
                continue;
            }
            let root = written.root_from(any, |references| references.is_none());
            written.add([SET, MAKER, 1, root]);
            for position in 2..=header % 256 {
                written.add([SET, MAKER, position, any_root()]);
            }
            written.add([COPY, MAKER, root, 0]);
        }
        written
    }

    fn add(&mut self, call: Call) {
        self.calls.push(call);
        self.heap.call(call).expect("a known code");
    }

    /// The first root from `start` on, going round, for whose object the number of references
    /// fits, none standing for a nil root; `start` if there is none.
    fn root_from(&self, start: u32, fits: fn(Option<u32>) -> bool) -> u32 {
        let references = |root: u32| {
            let place = place_of(self.heap.roots()[root as usize])?;
            Some(self.heap.word(place) % 256)
        };
        (start..MAKER)
            .chain(0..start)
            .find(|&root| fits(references(root)))
            .unwrap_or(start)
    }

    /// The region of the object at a root.
    fn region(&self, root: u32) -> usize {
        place_of(self.heap.roots()[root as usize]).map_or(MOST_REGIONS, |place| place / REGION)
    }

    /// A word of the object at a root.
    fn word_at(&self, root: u32, position: u32) -> u32 {
        let place = place_of(self.heap.roots()[root as usize]).expect("an object");
        self.heap.word(place + position as usize)
    }

    /// Lets the roots go back along their chains, so that they lie in all regions in turn.
    fn spread(&mut self) {
        let filled = self.heap.regions().len() - 1;
        for root in 0..MAKER {
            let wanted = root as usize % filled;
            while self.region(root) > wanted && self.word_at(root, 1) != NIL {
                self.add([GET, root, 1, root]);
            }
        }
    }

    /// Sets that store references within the same region, or else into others, in any order; none
    /// if there are no such objects. All overwrite references that are not nil.
    fn sets(&self, same: bool) -> Vec<Call> {
        let mut choices = Vec::new();
        for i in 0..MAKER {
            let positions = 1..=self.word_at(i, 0) % 256;
            for position in positions.filter(|&position| self.word_at(i, position) != NIL) {
                let others = (0..MAKER).filter(|&k| (self.region(i) == self.region(k)) == same);
                choices.extend(others.map(|k| [SET, i, position, k]));
            }
        }
        if choices.is_empty() {
            return Vec::new();
        }
        let mut random = Random::new(SEED);
        (0..SETS).map(|_| random.pick(&choices)).collect()
    }

    /// Walks all chains to their ends; each step is a get of the next object, a set that overwrites
    /// the reference to it, and a copy. Answers the calls; the heap has run them.
    fn walk(&mut self) -> Vec<Call> {
        let mut calls = Vec::new();
        for root in 0..MAKER {
            while self.word_at(root, 1) != NIL {
                for call in [
                    [GET, root, 1, MAKER],
                    [SET, root, 1, root],
                    [COPY, MAKER, root, 0],
                ] {
                    self.heap.call(call).expect("a known code");
                    calls.push(call);
                }
            }
        }
        calls
    }

    fn begin(&mut self) {
        self.add([BEGIN, 0, 0, 0]);
    }
}

/// The calls of a body, and the number that its time is divided by.
type Body = (Vec<Call>, usize);

fn each(calls: Vec<Call>) -> Body {
    let count = calls.len();
    (calls, count)
}

/// Copies between roots: what a call costs at least.
fn copies(_: &mut Written) -> Body {
    let mut random = Random::new(SEED);
    let mut root = || random.below(MAKER as usize) as u32;
    each((0..SETS).map(|_| [COPY, root(), root(), 0]).collect())
}

/// Sets within a region, or into another one.
fn sets(written: &mut Written, marking: bool, same: bool) -> Body {
    written.spread();
    if marking {
        written.begin();
    }
    each(written.sets(same))
}

fn idle_walk(written: &mut Written) -> Body {
    let calls = written.walk();
    let steps = calls.len() / 3;
    (calls, steps)
}

/// The same calls, but nearly each set marks an object.
fn marking_walk(written: &mut Written) -> Body {
    written.begin();
    let before = written.heap.marked().count(0, MOST_REGIONS * REGION);
    let (calls, steps) = idle_walk(written);
    let marked = written.heap.marked().count(0, MOST_REGIONS * REGION) - before;
    assert!(marked * 10 > steps * 9, "{marked} of {steps} sets mark");
    (calls, steps)
}

/// Marks until the next would answer done.
fn scans(written: &mut Written) -> Body {
    written.begin();
    let mut scans = 0;
    while written.heap.mark() == Ok(Scanning::Scanned) {
        scans += 1;
    }
    each(vec![[MARK, 0, 0, 0]; scans])
}

/// Marks until done; the time is for a scanned object.
fn marks(written: &mut Written) -> Body {
    let (mut calls, scans) = scans(written);
    calls.push([MARK, 0, 0, 0]);
    (calls, scans)
}

/// Refines until clean; the time is for a refined card.
fn refines(written: &mut Written) -> Body {
    let mut cards = 0;
    while written.heap.refine() == Refining::Refined {
        cards += 1;
    }
    (vec![[REFINE, 0, 0, 0]; cards + 1], cards)
}

/// The works, each with what ends the prefix and makes the body.
const WORKS: [(&str, fn(&mut Written) -> Body); 10] = [
    ("copy", copies),
    ("set in idle, same region", |w| sets(w, false, true)),
    ("set in idle, other region", |w| sets(w, false, false)),
    ("set in marking, same region", |w| sets(w, true, true)),
    ("set in marking, other region", |w| sets(w, true, false)),
    ("get, set, copy in idle", idle_walk),
    ("get, set, copy in marking", marking_walk),
    ("mark without done, an object", scans),
    ("mark until done, an object", marks),
    ("refine, a card", refines),
];

/// A work on a store of so many regions.
struct Work {
    regions: usize,
    prefix: Vec<Call>,
    body: Vec<Call>,
    count: usize,
}

impl Work {
    fn new(make: fn(&mut Written) -> Body, regions: usize) -> Self {
        let mut written = Written::graph(regions);
        let (body, count) = make(&mut written);
        Work {
            regions,
            prefix: written.calls,
            body,
            count,
        }
    }
}

/// What a run leaves.
#[derive(Clone, PartialEq, Eq)]
struct Left {
    run: u64,
    words: Vec<u32>,
    answers: Vec<u32>,
    fills: Vec<u32>,
}

type Side = fn(&[u32], &mut Left) -> u64;

#[inline(never)]
fn proved(calls: &[u32], left: &mut Left) -> u64 {
    let (words, answers, fills) = (&mut left.words, &mut left.answers, &mut left.fills);
    // SAFETY: pointers and lengths are those of four slices that do not overlap; the library only
    // reads the first.
    unsafe {
        heap_replay(
            COUNTED,
            calls.as_ptr(),
            calls.len(),
            words.as_mut_ptr(),
            words.len(),
            answers.as_mut_ptr(),
            answers.len(),
            fills.as_mut_ptr(),
            fills.len(),
        )
    }
}

#[inline(never)]
fn twin(calls: &[u32], left: &mut Left) -> u64 {
    replay(
        COUNTED,
        calls,
        &mut left.words,
        &mut left.answers,
        &mut left.fills,
    ) as u64
}

/// Runs of a list of calls, with the best time of each side.
struct Timing {
    calls: Vec<u32>,
    blank: Left,
    expected: Left,
    best: [f64; 2],
}

impl Timing {
    fn new(regions: usize, calls: Vec<u32>) -> Self {
        let blank = Left {
            run: 0,
            words: vec![0; regions * REGION],
            answers: vec![9; calls.len() / 2],
            fills: vec![9; regions],
        };
        let mut expected = blank.clone();
        expected.run = twin(&calls, &mut expected);
        assert_eq!(expected.run, calls.len() as u64 / 4);
        assert!(expected.answers.chunks(2).all(|answer| answer[0] != 3));
        Timing {
            calls,
            blank,
            expected,
            best: [f64::INFINITY; 2],
        }
    }

    /// Runs one side once.
    fn run(&mut self, number: usize, side: Side) {
        let mut left = self.blank.clone();
        let start = Instant::now();
        left.run = side(&self.calls, &mut left);
        let time = start.elapsed().as_secs_f64() * 1e9;
        assert!(left == self.expected, "the two sides differ");
        self.best[number] = self.best[number].min(time);
    }
}

const SIDES: [(&str, Side); 2] = [("proved", proved), ("twin", twin)];

/// Times a work; answers the nanoseconds that a call of the body takes, for each side.
fn time(work: &Work, only: Option<&str>) -> [f64; 2] {
    let body = [&work.prefix[..], &work.body].concat();
    let mut prefix = Timing::new(work.regions, work.prefix.concat());
    let mut whole = Timing::new(work.regions, body.concat());
    let start = Instant::now();
    let mut runs = 0;
    while runs < LEAST_RUNS || start.elapsed() < 2 * LEAST_TIME {
        for (number, (name, side)) in SIDES.into_iter().enumerate() {
            if only.is_none_or(|only| only == name) {
                prefix.run(number, side);
                whole.run(number, side);
            }
        }
        runs += 1;
    }
    [0, 1].map(|side| (whole.best[side] - prefix.best[side]) / work.count as f64)
}

fn main() {
    let arguments: Vec<String> = env::args().skip(1).collect();
    let wanted = arguments.first().map_or("", String::as_str);
    let side = arguments.get(1).map(String::as_str);
    for (name, make) in WORKS.into_iter().filter(|work| work.0.starts_with(wanted)) {
        let mut times = Vec::new();
        for work in SIZES.map(|regions| Work::new(make, regions)) {
            if work.count == 0 {
                continue;
            }
            let [proved, twin] = time(&work, side);
            println!(
                "{name:<29} {:>2} regions {:>6} times  proved {proved:7.1} ns  twin {twin:7.1} ns  \
                 ratio {:5.2}",
                work.regions,
                work.count,
                proved / twin
            );
            times.push([proved, twin]);
        }
        if let (true, [few, .., many]) = (name.starts_with("mark"), &times[..]) {
            println!(
                "{name}, most regions to fewest: proved {:.1} times, twin {:.1} times",
                many[0] / few[0],
                many[1] / few[1]
            );
        }
    }
}
