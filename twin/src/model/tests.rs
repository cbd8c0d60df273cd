use super::*;
use crate::calls::{self, Answer, Call, Edits};
use crate::heap::{place_of, rules, Heap, Phase};
use crate::layouts::{Cabling, Counted};
use crate::lives::{Life, Scope};
use crate::stores::WordStore;

#[test]
fn objects_are_numbered_in_order() {
    let mut model = Model::<Counted>::new();
    assert_eq!(model.new_object(5, 64), Err(Refusal::HeaderNotLegal));
    assert_eq!(model.new_object(5, 1 << 8 | 1), Ok(()));
    assert_eq!(model.new_object(6, 0), Ok(()));
    assert_eq!((model.roots()[5], model.roots()[6]), (1, 2));
    assert_eq!(model.set(5, 1, 6), Ok(()));
    assert_eq!(model.put(5, 2, 77), Ok(()));
    assert_eq!(model.objects()[0].body, [2, 77]);
    assert_eq!(model.get(5, 1, 7), Ok(()));
    assert_eq!(model.same(6, 7), Ok(true));
    assert_eq!(model.get(5, 2, 7), Err(Refusal::WrongPosition));
    assert_eq!(model.peek(5, 2), Ok(77));
    assert_eq!(model.peek(7, 1), Err(Refusal::WrongPosition));
    assert_eq!(model.peek(8, 1), Err(Refusal::RootNil));
    assert_eq!(model.copy(8, 5), Ok(()));
    assert_eq!(model.head(5), Err(Refusal::RootNil));
}

#[test]
fn there_is_always_space() {
    let mut model = Model::<Cabling>::new();
    for number in 1..=20_000 {
        assert_eq!(model.new_object(0, 5), Ok(()));
        assert_eq!(model.roots()[0], number);
    }
}

/// Which objects the roots reach, by their numbers - 1.
fn reached<L: Layout>(model: &Model<L>) -> Vec<bool> {
    let mut reached = vec![false; model.objects.len()];
    let mut met = model.roots.to_vec();
    while let Some(number) = met.pop() {
        let index = number as usize;
        if number == NIL || reached[index - 1] {
            continue;
        }
        reached[index - 1] = true;
        let Object { header, body } = &model.objects[index - 1];
        let words = (1..).zip(body);
        met.extend(
            words
                .filter(|(position, _)| L::is_reference(*header, *position))
                .map(|(_, &number)| number),
        );
    }
    reached
}

/// How often some things came.
#[derive(Default)]
struct Counts {
    calls: usize,
    done: usize,
    no_space: usize,
    refined: usize,
}

/// A heap and the model of its life.
struct Pair<L> {
    heap: Heap<L, WordStore>,
    model: Model<L>,
    /// The places of the objects, by their numbers - 1.
    places: Vec<usize>,
    /// What was reached at the last begin.
    reached: Vec<bool>,
    /// The scans since then.
    scans: usize,
    counts: Counts,
}

impl<L: Layout> Pair<L> {
    fn new(words: Vec<u32>, counts: Counts) -> Self {
        Pair {
            heap: Heap::new(WordStore::new(words)),
            model: Model::new(),
            places: Vec::new(),
            reached: Vec::new(),
            scans: 0,
            counts,
        }
    }

    fn call(&mut self, call: Call) {
        let phase = self.heap.phase();
        let answer = self.heap.call(call).expect("a known code");
        self.counts.calls += 1;
        match call[0] {
            calls::BEGIN => self.after_begin(phase, answer),
            calls::MARK => self.after_mark(phase, answer),
            calls::REFINE => self.counts.refined += usize::from(answer == Answer::Refined),
            _ => self.after_edit(call, answer),
        }
    }

    fn after_begin(&mut self, phase: Phase, answer: Answer) {
        if phase == Phase::Marking {
            assert_eq!(answer, Answer::Refused(Refusal::AlreadyMarking));
        } else {
            assert_eq!(answer, Answer::Granted);
            self.reached = reached(&self.model);
            self.scans = 0;
        }
    }

    fn after_mark(&mut self, phase: Phase, answer: Answer) {
        if phase != Phase::Marking {
            assert_eq!(answer, Answer::Refused(Refusal::NotMarking));
            return;
        }
        let scans = self.reached.iter().filter(|&&reached| reached).count();
        let done = self.scans == scans;
        assert_eq!(answer, if done { Answer::Done } else { Answer::Scanned });
        if done {
            self.counts.done += 1;
            self.marks_are_exact();
        } else {
            self.scans += 1;
        }
    }

    /// Exactly those reached at the last begin and those made since are marked.
    fn marks_are_exact(&self) {
        let reached = self.reached.iter().copied().chain(std::iter::repeat(true));
        for (&place, reached) in self.places.iter().zip(reached) {
            assert_eq!(self.heap.marked().contains(place), reached);
        }
    }

    fn after_edit(&mut self, call: Call, answer: Answer) {
        if answer == Answer::Refused(Refusal::NoSpace) {
            self.counts.no_space += 1;
            return;
        }
        assert_eq!(self.model.edit(call), Some(answer));
        if call[0] == calls::NEW && answer == Answer::Granted {
            let reference = self.heap.roots()[call[1] as usize];
            self.places.extend(place_of(reference));
        }
    }

    /// All objects and roots are equal, whether reached or not.
    fn contents_are_equal(&self) {
        let reference = |number: u32| match number {
            NIL => NIL,
            number => self.places[number as usize - 1] as u32 + 1,
        };
        assert_eq!(self.heap.roots(), &self.model.roots.map(reference));
        for (&place, Object { header, body }) in self.places.iter().zip(&self.model.objects) {
            assert_eq!(self.heap.word(place), *header);
            for (position, &word) in (1..).zip(body) {
                let is_reference = L::is_reference(*header, position);
                let expected = if is_reference { reference(word) } else { word };
                assert_eq!(self.heap.word(place + position as usize), expected);
            }
        }
    }
}

fn run_life<L: Layout>(life: Life, counts: Counts) -> Counts {
    let mut pair = Pair::<L>::new(life.words, counts);
    for call in life.calls {
        pair.call(call);
        if pair.counts.calls.is_multiple_of(97) {
            rules::check(&pair.heap);
        }
    }
    rules::check(&pair.heap);
    pair.contents_are_equal();
    pair.counts
}

#[test]
fn heap_and_model_answer_alike() {
    let mut counts = Counts::default();
    for life in (1..=2_800).map(|seed| Life::new(seed, Scope::Steps)) {
        counts = if life.sign == Counted::sign() {
            run_life::<Counted>(life, counts)
        } else {
            run_life::<Cabling>(life, counts)
        };
    }
    assert!(counts.calls > 1_000_000);
    assert!(counts.done > 1_000);
    assert!(counts.no_space > 10_000);
    assert!(counts.refined > 10_000);
}
