//! Measures the product beside its peers, compares what they answer, and prints one table.

mod maude;
mod opening;
mod product;
mod rescan;
mod sweep;
mod terms;
mod workloads;

use product::Outcome;
use std::path::PathBuf;
use std::process::Command;
use std::time::Instant;
use terms::{End, MOST_TERM, Sweeper, Swept, System};
use workloads::{Rng, Stepping, Workload};

/// How often each is measured, how many terms a batch has, and where files may be written.
struct Setting {
    runs: usize,
    terms: usize,
    folder: PathBuf,
    maude: bool,
}

fn number(name: &str, otherwise: usize) -> usize {
    std::env::var(name).ok().and_then(|value| value.parse().ok()).unwrap_or(otherwise)
}

/// The median of at least so many runs, and of as many as begin within 50 ms, in nanoseconds.
fn median(runs: usize, mut run: impl FnMut() -> f64) -> f64 {
    let start = Instant::now();
    let mut times = Vec::new();
    while times.len() < runs || start.elapsed().as_millis() < 50 {
        times.push(run());
    }
    times.sort_by(f64::total_cmp);
    times[times.len() / 2]
}

fn timed(run: impl FnOnce()) -> f64 {
    let start = Instant::now();
    run();
    start.elapsed().as_nanos() as f64
}

/// Start terms in slots of 1,024 codes, and a copy that is swept.
struct Batch<'a> {
    system: &'a System,
    starts: Vec<u16>,
    sizes: Vec<usize>,
    slots: Vec<u16>,
    outcomes: Vec<Outcome>,
}

#[derive(Clone, Copy, PartialEq)]
enum Who {
    Product,
    Rescan,
    Fast,
}

impl<'a> Batch<'a> {
    fn new(system: &'a System, terms: &[Vec<u16>]) -> Self {
        let mut starts = vec![0; terms.len() * MOST_TERM];
        for (slot, term) in starts.chunks_exact_mut(MOST_TERM).zip(terms) {
            slot[..term.len()].copy_from_slice(term);
        }
        Batch {
            system,
            slots: starts.clone(),
            starts,
            sizes: terms.iter().map(Vec::len).collect(),
            outcomes: vec![Outcome::default(); terms.len()],
        }
    }

    fn reset(&mut self) {
        self.slots.copy_from_slice(&self.starts);
        for (outcome, size) in self.outcomes.iter_mut().zip(&self.sizes) {
            *outcome = Outcome { size: *size, ..Outcome::default() };
        }
    }

    fn sweep_by(&mut self, sweeper: &mut dyn Sweeper, most: u64) {
        for (slot, outcome) in self.slots.chunks_exact_mut(MOST_TERM).zip(self.outcomes.iter_mut()) {
            let (end, steps, size) = sweeper.sweep(slot, outcome.size, most);
            let end = [End::Normal, End::More, End::More, End::TooLong].iter().position(|other| *other == end);
            *outcome = Outcome { size, steps, end: end.unwrap() as u64 + 1 };
        }
    }

    /// One run of the batch, from codes to codes: openings, sweeps for at most so many steps, and copies out.
    fn run(&mut self, who: Who, most: u64) -> f64 {
        self.reset();
        timed(|| match who {
            Who::Product => product::sweep(self.system, most, &mut self.slots, &mut self.outcomes),
            Who::Rescan => self.sweep_by(&mut rescan::Rescan::new(self.system), most),
            Who::Fast => {
                let index = sweep::Index::new(self.system);
                self.sweep_by(&mut sweep::Walk::new(self.system, &index), most)
            }
        })
    }

    fn answers(&self) -> Vec<Swept> {
        let slots = self.slots.chunks_exact(MOST_TERM).zip(&self.outcomes);
        let answer = |(slot, outcome): (&[u16], &Outcome)| Swept {
            end: product::end_of(outcome),
            steps: outcome.steps,
            codes: slot[..outcome.size].to_vec(),
        };
        slots.map(answer).collect()
    }

    /// Runs all of these and compares what they answer code by code.
    fn compare(&mut self, most: u64, all: &[Who]) -> Vec<Swept> {
        let mut answers: Option<Vec<Swept>> = None;
        for who in all {
            self.run(*who, most);
            let found = self.answers();
            if let Some(answers) = &answers {
                for (nth, (one, other)) in answers.iter().zip(&found).enumerate() {
                    let start = &self.starts[nth * MOST_TERM..][..self.sizes[nth]];
                    assert_eq!(one, other, "{}\n{}", self.system.text, self.system.print(start));
                }
            }
            answers = Some(found);
        }
        answers.unwrap()
    }
}

const ALL: [Who; 3] = [Who::Product, Who::Rescan, Who::Fast];

/// A file's reading, the product and a file's writing: what `Who::Product` is beside Maude, in a process of its own.
fn print_files(rules: &str, starts: &str, out: &str) {
    let read = |path: &str| std::fs::read(path).expect("a file of texts");
    std::fs::write(out, product::print(&read(rules), &read(starts))).expect("a file for normal forms");
}

/// A row of the table: a ratio for each that has one, and what it was computed from.
fn row(what: &str, ratios: [Option<f64>; 3], measured: &str) {
    let cells = ratios.map(|ratio| ratio.map_or(String::new(), |ratio| format!("{ratio:.2}")));
    println!("| {what} | {} | {measured} |", cells.join(" | "));
}

/// The whole batch as texts, from files into files, each by a process of its own; and both print the same normal forms.
fn run_texts(setting: &Setting, load: &Workload, answers: &[Swept]) {
    let path = |name: &str| setting.folder.join(name);
    let write = |name: &str, text: &str| std::fs::write(path(name), text).expect("a scratch file");
    let system = &load.system;
    let starts: String = load.terms.iter().map(|term| system.print(term) + "\n").collect();
    let expected: Vec<String> = answers.iter().map(|answer| system.print(&answer.codes)).collect();
    write("rules.trs", &system.text);
    write("starts", &starts);
    write("batch.maude", &maude::file(system, &load.terms));
    let product = median(setting.runs, || {
        let mut command = Command::new(std::env::current_exe().unwrap());
        command.arg("print").args([path("rules.trs"), path("starts"), path("product.out")]);
        timed(|| assert!(command.status().unwrap().success()))
    });
    let printed = std::fs::read_to_string(path("product.out")).unwrap();
    assert!(printed.lines().eq(expected.iter().map(String::as_str)), "{}: other texts", load.name);
    if !setting.maude {
        return;
    }
    let maude = median(setting.runs, || timed(|| maude::run(&path("batch.maude"), &path("maude.out"))));
    assert_eq!(maude::results(&path("maude.out")), expected, "{}: Maude has other normal forms", load.name);
    let measured = format!("Maude {:.1} ms, product {:.1} ms", maude / 1e6, product / 1e6);
    row(&format!("{}, as texts: time / Maude's", load.name), [Some(product / maude), None, None], &measured);
}

fn run_workload(setting: &Setting, load: &Workload) {
    let mut batch = Batch::new(&load.system, &load.terms);
    let answers = batch.compare(u64::MAX, &ALL);
    assert!(answers.iter().all(|answer| answer.end == End::Normal), "{}: not all end", load.name);
    let terms = load.terms.len() as f64;
    let steps = answers.iter().map(|answer| answer.steps).sum::<u64>() as f64 / terms;
    let times = ALL.map(|who| median(setting.runs, || batch.run(who, u64::MAX)) / terms);
    let fast = times[2];
    let each = if steps > 0.0 { format!(", {:.0} ns a step", fast / steps) } else { String::new() };
    let measured = format!("{steps:.0} steps; fast {:.1} us a term{each}", fast / 1e3);
    row(&format!("{}: time / fast", load.name), times.map(|time| Some(time / fast)), &measured);
    run_texts(setting, load, &answers);
}

/// What one step costs: a sweep for all steps less one for none, in both of which the term is opened and copied out.
fn step_cost(setting: &Setting, stepping: &Stepping, who: Who) -> f64 {
    let terms = vec![stepping.term.clone(); setting.terms.div_ceil(8)];
    let mut batch = Batch::new(&stepping.system, &terms);
    let cost = median(setting.runs, || batch.run(who, stepping.steps) - batch.run(who, 0));
    cost / (terms.len() as u64 * stepping.steps) as f64
}

/// The cost of a step of one kind by that of one of another kind.
fn run_steps(setting: &Setting, what: &str, one: &Stepping, other: &Stepping) {
    for stepping in [one, other] {
        let answers = Batch::new(&stepping.system, &[stepping.term.clone()]).compare(stepping.steps, &ALL);
        assert_eq!(answers[0].steps, stepping.steps);
    }
    let costs = ALL.map(|who| [one, other].map(|stepping| step_cost(setting, stepping, who)));
    let words = costs.map(|[one, other]| format!("{one:.0}/{other:.0}")).join(", ");
    row(what, costs.map(|[one, other]| Some(one / other)), &format!("{words} ns"));
}

/// Compares answers alone: on terms that outgrow their room, and on random systems.
fn check(setting: &Setting) {
    let large = workloads::batch("too large", setting.terms.div_ceil(10), workloads::too_large);
    let answers = Batch::new(&large.system, &large.terms).compare(u64::MAX, &ALL);
    assert!(answers.iter().any(|answer| answer.end == End::TooLong));
    let mut rng = Rng::new(7);
    for _ in 0..setting.terms {
        let load = workloads::random(&mut rng, 10);
        let mut batch = Batch::new(&load.system, &load.terms);
        for most in [0, 1, 40] {
            batch.compare(most, &ALL);
        }
    }
}

/// Reading three texts that are as large as may be, and opening in full on them.
fn run_opening(setting: &Setting) {
    let inputs = opening::largest();
    let [rules, start] = [&inputs.rules, &inputs.start].map(|text| text.as_bytes());
    let product = || product::open(rules, &inputs.certificate, start);
    let twin = || opening::open(&inputs.rules, &inputs.certificate, &inputs.start);
    assert_eq!(Some(product()), twin());
    let product = median(setting.runs, || timed(|| assert!(product() > 0)));
    let twin = median(setting.runs, || timed(|| assert!(twin().is_some())));
    let measured = format!("product {:.2} ms, twin {:.2} ms", product / 1e6, twin / 1e6);
    row(
        "reading and opening in full, the largest inputs: time / a twin's",
        [Some(product / twin), None, None],
        &measured,
    );
}

fn run_all(setting: &Setting) {
    for load in &workloads::all(setting.terms) {
        run_workload(setting, load);
    }
    let deep = |size, under, rules: &str| workloads::deep(size, under, rules);
    let run = |what: &str, one: &Stepping, other: &Stepping| run_steps(setting, what, one, other);
    run("a step at 1,024 codes / at 64, deep", &deep(1024, 0, ""), &deep(64, 0, ""));
    let both = workloads::BOTH;
    run("the same under non-linear rules", &deep(1024, 256, both), &deep(64, 16, both));
    run("a step at 1,023 codes / at 63, wide", &workloads::wide(9), &workloads::wide(5));
    run("the same where a step shrinks the term, deep", &workloads::shrinking(1024), &workloads::shrinking(64));
    let few = deep(256, 0, "");
    run("a step with 32 rules / with 4", &deep(256, 0, &workloads::other_rules(false)), &few);
    run("the same, all under one symbol", &deep(256, 0, &workloads::other_rules(true)), &few);
    run_opening(setting);
}

fn main() {
    let arguments: Vec<String> = std::env::args().collect();
    if let [_, mode, rules, starts, out] = &arguments[..] {
        assert_eq!(mode, "print");
        return print_files(rules, starts, out);
    }
    let folder = PathBuf::from(arguments.get(1).map_or(".", String::as_str));
    let [runs, terms] = [number("BENCH_RUNS", 5), number("BENCH_TERMS", 200)];
    let setting = Setting { runs, terms, folder, maude: maude::is_there() };
    if !setting.maude {
        eprintln!("no maude (apt-get install maude): its rows are left out");
    }
    check(&setting);
    println!("| what | product | rescan | fast | measured |\n|---|---|---|---|---|");
    run_all(&setting);
}
