//! How many calls were compared, by kind and by what they answered, and the smallest input of each kind that differs.

use crate::input;
use crate::memory::Placement;
use std::io::{PipeWriter, Write};

/// The refusals have the numbers 1 to 42; 0 stands for a result.
const NUMBERS: usize = 43;

struct Kind {
    group: &'static str,
    call: String,
    answers: [u64; NUMBERS],
    differ: u64,
    smallest: Option<String>,
}

/// A group is a way to make inputs; each call that a group asks is a kind.
pub struct Tally {
    group: &'static str,
    kinds: Vec<Kind>,
    placement: Placement,
    teller: Option<Teller>,
}

/// A child process does not count: it tells its calls and what came of them, a line each with tabs between the words.
pub struct Teller {
    pipe: PipeWriter,
    calls: usize,
    dead: Vec<usize>,
}

impl Teller {
    /// With the numbers of those calls of the first input that are left out, since a child died of each.
    pub fn new(pipe: PipeWriter, dead: Vec<usize>) -> Self {
        Teller { pipe, calls: 0, dead }
    }

    fn tell(&mut self, words: &[&str]) {
        self.pipe.write_all(format!("{}\n", words.join("\t")).as_bytes()).expect("the other end listens");
    }
}

impl Tally {
    pub fn new() -> Self {
        Tally { group: "", kinds: Vec::new(), placement: Placement::Heap, teller: None }
    }

    pub fn telling(teller: Teller) -> Self {
        Tally { teller: Some(teller), ..Tally::new() }
    }

    pub fn start(&mut self, group: &'static str) {
        self.group = group;
    }

    /// Where the calls from now on are lent their memory.
    pub fn place(&mut self, placement: Placement) {
        self.placement = placement;
    }

    pub fn placement(&self) -> Placement {
        self.placement
    }

    /// To be asked before each call that may die: whether it is to be made.
    pub fn begin(&mut self, call: &str, refusal: usize, line: impl FnOnce() -> String) -> bool {
        let Some(teller) = &mut self.teller else { return true };
        let place = self.placement.name();
        let died_before = teller.dead.contains(&teller.calls);
        teller.calls += 1;
        match died_before {
            true => teller.tell(&["died before"]),
            false => teller.tell(&["asks", call, &refusal.to_string(), place, &line()]),
        }
        !died_before
    }

    /// Tells that an input is done, and the random numbers of the next.
    pub fn tell_input(&mut self, random: u64) {
        let teller = self.teller.as_mut().expect("a child tells");
        (teller.calls, teller.dead) = (0, vec![]);
        teller.tell(&["input", &random.to_string()]);
    }

    /// Counts one comparison. `text` gives what was seen and the input's line, where the two sides differ.
    pub fn count(&mut self, call: &str, refusal: usize, same: bool, text: impl FnOnce() -> (String, String)) {
        if let Some(teller) = &mut self.teller {
            return if same { teller.tell(&["same", ""]) } else { teller.tell(&["differs", &text().0]) };
        }
        let known = self.kinds.iter().rposition(|kind| kind.group == self.group && kind.call == call);
        let at = known.unwrap_or(self.kinds.len());
        if known.is_none() {
            let group = self.group;
            let call = call.to_string();
            self.kinds.push(Kind { group, call, answers: [0; NUMBERS], differ: 0, smallest: None });
        }
        let kind = &mut self.kinds[at];
        kind.answers[refusal] += 1;
        if !same {
            kind.differ += 1;
            let (seen, line) = text();
            let text = lines(kind.group, &seen, &line);
            if kind.smallest.as_ref().is_none_or(|smallest| text.len() < smallest.len()) {
                kind.smallest = Some(text);
            }
        }
    }

    /// Where this group never had this refusal of a call due, that counts as a difference.
    pub fn require(&mut self, call: &str, refusal: usize) {
        let mut kinds = self.kinds.iter().filter(|kind| kind.group == self.group && kind.call == call);
        if !kinds.any(|kind| kind.answers[refusal] > 0) {
            self.count(call, refusal, false, || {
                (format!("{call}: refusal {refusal} was never due"), "-".to_string())
            });
        }
    }

    pub fn compared(&self) -> u64 {
        self.kinds.iter().map(|kind| kind.answers.iter().sum::<u64>()).sum()
    }

    pub fn differ(&self) -> u64 {
        self.kinds.iter().map(|kind| kind.differ).sum()
    }

    /// The smallest differing inputs, as a list.
    pub fn differing(&self) -> String {
        let mut texts: Vec<&str> = self.kinds.iter().filter_map(|kind| kind.smallest.as_deref()).collect();
        texts.sort_by_key(|text| text.len());
        texts.concat()
    }

    /// A line for each kind: its count, and in it how often each refusal was due.
    pub fn report(&self) -> String {
        self.kinds.iter().map(|kind| format!("{}\n", kind.line())).collect()
    }
}

impl Kind {
    fn line(&self) -> String {
        let count: u64 = self.answers.iter().sum();
        let answers = (0..NUMBERS).filter(|&number| self.answers[number] > 0);
        let counts: Vec<String> = answers
            .map(|number| match number {
                0 => format!("results {}", self.answers[0]),
                _ => format!("{number}: {}", self.answers[number]),
            })
            .collect();
        let differ = if self.differ > 0 { format!(", {} DIFFER", self.differ) } else { String::new() };
        format!("{:<18} {:<13} {count:>9}{differ} ({})", self.group, self.call, counts.join(", "))
    }
}

/// What was seen as a comment, then the input. One that has no list form is a comment too.
fn lines(group: &str, seen: &str, line: &str) -> String {
    let mark = if input::read(line).is_ok() { "" } else { "# " };
    format!("# {group}: {seen}\n{mark}{line}\n")
}
