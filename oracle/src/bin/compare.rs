//! Holds the box under test against the oracle, call by call.
//!
//! `compare [--seed S] [--count N]`: every one-field change of three small images, changes of the directed leaks, and then N sessions in
//! each edition.
//! Fails at any difference, and where a refusal or an instruction came too seldom.

use oracle::boxes::OracleBox;
use oracle::checker::Refusal;
use oracle::generate::{
    accepted, careless, every_instruction, mutant, one_field_changes, random_words, refused_by, Random, Size,
};
use oracle::kinds::Kind;
use oracle::leaks::DIRECTED;
use oracle::machine::{End, Report, Strike};
use oracle::text::{all_examples, card, secret_branch, show};
use oracle::trial::{Edition, Press, Tested, EDITIONS};
use oracle::words::{instruction_name, INSTRUCTION_KINDS};
use std::process::exit;

/// How often each refusal and each instruction must come.
const ENOUGH: u64 = 100;
/// After so many differences there is no point in going on.
const MANY_DIFFERENCES: usize = 10;
/// More steps than most programmes take that halt at all.
const PLENTY: u32 = 1500;
/// How many random changes of each directed leak are loaded.
const CHANGES_OF_LEAKS: usize = 1000;

struct Tally {
    comparisons: usize,
    differences: usize,
    loads: [u64; 3],
    accepted: [u64; 3],
    runs: u64,
    ends: [u64; 3],
    /// By number, 1 to 16.
    refusals: [u64; 17],
    /// By kind of instruction.
    executed: [u64; 256],
    stood: [u64; 256],
}

impl Tally {
    fn new() -> Tally {
        Tally {
            comparisons: 0,
            differences: 0,
            loads: [0; 3],
            accepted: [0; 3],
            runs: 0,
            ends: [0; 3],
            refusals: [0; 17],
            executed: [0; 256],
            stood: [0; 256],
        }
    }
}

/// What came of one call: a session whose boxes differ is over, since everything behind would differ too.
enum Verdict {
    Same,
    Different,
}

/// The last run that halted, to be repeated with fuels and strips at the edge.
#[derive(Clone)]
struct Halted {
    job: Vec<u32>,
    steps: u32,
    strikes: usize,
}

/// An oracle and a box under test that go through the same calls.
struct Session<'a, P> {
    edition: Edition,
    kind: Kind,
    name: String,
    oracle: OracleBox,
    tested: P,
    halted: Option<Halted>,
    tally: &'a mut Tally,
}

impl<'a, P: Press> Session<'a, P> {
    fn new(edition: Edition, name: String, tally: &'a mut Tally) -> Self {
        let kind = edition.kind();
        let oracle = OracleBox::new(kind.clone());
        Session { edition, kind, name, oracle, tested: P::make(edition), halted: None, tally }
    }

    fn different(&mut self, call: &str, image: &[u32], by_oracle: &str, by_tested: &str) -> Verdict {
        self.tally.differences += 1;
        println!("DIFFERENCE in {} ({})", self.name, self.edition.name());
        println!("  call   {call}");
        println!("  image  {}", show(image));
        println!("  oracle {by_oracle}");
        println!("  {:<6} {by_tested}", P::NAME);
        if self.tally.differences >= MANY_DIFFERENCES {
            println!("compare: {} comparisons, {} differences", self.tally.comparisons, self.tally.differences);
            exit(1);
        }
        Verdict::Different
    }

    /// What both boxes hold after a call.
    fn same_box(&mut self, call: &str) -> Verdict {
        let same = self.oracle.image() == self.tested.image() && self.oracle.is_stopped() == self.tested.is_stopped();
        if same {
            return Verdict::Same;
        }
        let image = self.oracle.image().to_vec();
        let by_oracle = format!("holds {} words, stopped: {}", image.len(), self.oracle.is_stopped());
        let held = show(self.tested.image());
        let by_tested = format!("holds {} words, stopped: {}: {held}", self.tested.image().len(), self.tested.is_stopped());
        self.different(&format!("{call}; what the box then holds"), &image, &by_oracle, &by_tested)
    }

    fn load(&mut self, image: &[u32]) -> Verdict {
        self.tally.comparisons += 1;
        let by_oracle = self.oracle.load(image);
        let by_tested = self.tested.load(image);
        self.count_load(&by_oracle);
        if by_oracle != by_tested {
            return self.different("load", image, &format!("{by_oracle:?}"), &format!("{by_tested:?}"));
        }
        if by_oracle.is_ok() {
            self.halted = None;
        }
        self.same_box("load")
    }

    fn count_load(&mut self, answer: &Result<(), Refusal>) {
        self.tally.loads[self.edition.index()] += 1;
        match answer {
            Err(refusal) => self.tally.refusals[usize::from(refusal.number)] += 1,
            Ok(()) => {
                self.tally.accepted[self.edition.index()] += 1;
                for instruction in self.oracle.program().iter().flat_map(|program| &program.items.instructions) {
                    self.tally.stood[usize::from(instruction.kind())] += 1;
                }
            }
        }
    }

    /// One run on both boxes, with the same strip and sheet on both sides.
    fn run(&mut self, job: &[u32], fuel: u32, strip: &[Strike], sheet: &[u32]) -> Verdict {
        self.tally.comparisons += 1;
        self.tally.runs += 1;
        let (mut strip_a, mut sheet_a) = (strip.to_vec(), sheet.to_vec());
        let (mut strip_b, mut sheet_b) = (strip.to_vec(), sheet.to_vec());
        let executed = &mut self.tally.executed;
        let by_oracle =
            self.oracle.run_watched(job, fuel, &mut strip_a, &mut sheet_a, |kind| executed[usize::from(kind)] += 1);
        let by_tested = self.tested.run(job, fuel, &mut strip_b, &mut sheet_b);
        match by_oracle {
            Err(number) => self.tally.refusals[usize::from(number)] += 1,
            Ok(report) => self.tally.ends[report.end as usize] += 1,
        }
        self.left_alone(by_oracle, (strip, sheet), (&strip_a, &sheet_a));
        if by_oracle != by_tested || strip_a != strip_b || sheet_a != sheet_b {
            let call = format!("run, job {job:?}, fuel {fuel}, strip of {}, sheet of {}", strip.len(), sheet.len());
            let shown = |answer: Result<Report, u8>, strip: &[Strike], sheet: &[u32]| {
                format!("{answer:?}\n         strip {strip:?}\n         sheet {sheet:?}")
            };
            let image = self.oracle.image().to_vec();
            let (a, b) = (shown(by_oracle, &strip_a, &sheet_a), shown(by_tested, &strip_b, &sheet_b));
            return self.different(&call, &image, &a, &b);
        }
        if let Ok(Report { end: End::Halted, steps, strikes }) = by_oracle {
            self.halted = Some(Halted { job: job.to_vec(), steps, strikes });
        }
        self.same_box("run")
    }

    /// The rest of strip and sheet stays as it was, said once more without the other box.
    fn left_alone(&self, answer: Result<Report, u8>, before: (&[Strike], &[u32]), after: (&[Strike], &[u32])) {
        let (strikes, cells) = match answer {
            Err(_) => (0, 0),
            Ok(report) => (report.strikes, self.oracle.program().map_or(0, |program| program.cell_types.len())),
        };
        assert_eq!(before.0[strikes..], after.0[strikes..], "the oracle wrote behind the strikes");
        assert_eq!(before.1[cells..], after.1[cells..], "the oracle wrote behind the cells");
    }
}

/// A session of random calls.
impl<P: Press> Session<'_, P> {
    fn go(&mut self, random: &mut Random) -> Verdict {
        let size = if random.once_in(80) { Size::Large } else { Size::Small };
        let mut image = accepted(&self.kind, random, size);
        if random.once_in(6) {
            // An empty box.
            if let Verdict::Different = self.random_run(random) {
                return Verdict::Different;
            }
        } else if let Verdict::Different = self.load(&image) {
            return Verdict::Different;
        }
        for _ in 0..random.between(6, 16) {
            let stopped = self.oracle.is_stopped() && !random.once_in(3);
            let verdict = match random.below(if stopped { 8 } else { 20 }) {
                0 => {
                    image = accepted(&self.kind, random, Size::Small);
                    self.load(&image)
                }
                1 => self.load(&mutant(random, &image)),
                2 | 3 => self.directed_load(random, &image),
                4 => self.load(&random_words(random)),
                5 => self.load(&careless(&self.kind, random)),
                6 | 7 => self.load(&image),
                8 | 9 => self.run_at_the_edge(random),
                _ => self.random_run(random),
            };
            if let Verdict::Different = verdict {
                return Verdict::Different;
            }
        }
        Verdict::Same
    }

    fn directed_load(&mut self, random: &mut Random, image: &[u32]) -> Verdict {
        let number = random.between(1, 12) as u8;
        match refused_by(number, &self.kind, random, image) {
            Some(changed) => self.load(&changed),
            None => self.load(&mutant(random, image)),
        }
    }

    /// The number of words that the job should have, and of cells.
    fn lengths(&self) -> (usize, usize) {
        self.oracle.program().map_or((0, 0), |program| (program.integer_cells.len(), program.cell_types.len()))
    }

    fn random_run(&mut self, random: &mut Random) -> Verdict {
        let (words, cells) = self.lengths();
        let length = match random.below(12) {
            0 => random.below(words + 3),
            _ => words,
        };
        let job: Vec<u32> = (0..length).map(|_| random.job_word()).collect();
        let fuel = match random.below(8) {
            0 => 0,
            1 => random.below(12) as u32,
            2 => random.below(100) as u32,
            _ => PLENTY,
        };
        let records = match random.below(8) {
            0 => 0,
            1 => random.below(4),
            2 => random.below(12),
            _ => 200,
        };
        let room = match random.below(12) {
            0 => random.below(cells + 1),
            1..=4 => cells + random.below(6),
            _ => cells,
        };
        self.run(&job, fuel, &random_strip(random, records), &random_sheet(random, room))
    }

    /// The last halted run once more, with just enough fuel and strip, or one short, or no end of fuel.
    fn run_at_the_edge(&mut self, random: &mut Random) -> Verdict {
        let Some(last) = self.halted.clone() else {
            return self.random_run(random);
        };
        let (_, cells) = self.lengths();
        let fuel = match random.below(5) {
            0 => last.steps - 1,
            1 => u32::MAX,
            _ => last.steps,
        };
        let records = if random.once_in(4) { last.strikes.saturating_sub(1) } else { last.strikes };
        let room = if random.once_in(5) { cells.saturating_sub(1) } else { cells };
        self.run(&last.job, fuel, &random_strip(random, records), &random_sheet(random, room))
    }
}

/// Strips and sheets begin with random words, so that what should be left alone is seen to be.
fn random_strip(random: &mut Random, records: usize) -> Vec<Strike> {
    (0..records).map(|_| random.word()).map(|word| Strike { channel: word as u8, word }).collect()
}

fn random_sheet(random: &mut Random, room: usize) -> Vec<u32> {
    (0..room).map(|_| random.word()).collect()
}

/// The examples, each loaded and run; every one-field change of three small images; and the programmes that single rules keep out.
fn fixed_images(edition: Edition, random: &mut Random, tally: &mut Tally) {
    let mut session = Session::<Tested>::new(edition, "the examples".into(), tally);
    for image in all_examples() {
        session.load(&image);
        session.run(&[7, 9], 6, &[Strike::default(); 2], &[0; 2]);
        session.run(&[1], 100, &[Strike::default(); 2], &[0; 3]);
    }
    for base in [card(), secret_branch(), every_instruction()] {
        let mut session = Session::<Tested>::new(edition, "the one-field changes".into(), session.tally);
        for image in one_field_changes(&base) {
            session.load(&image);
        }
    }
    let mut session = Session::<Tested>::new(edition, "the directed leaks".into(), session.tally);
    for case in &DIRECTED {
        session.load(&case.image());
        for _ in 0..CHANGES_OF_LEAKS {
            session.load(&mutant(random, &case.image()));
        }
    }
}

/// Prints the counts; false where one is too low.
fn show_counts(tally: &Tally) -> bool {
    let mut enough = true;
    for edition in EDITIONS {
        let index = edition.index();
        println!("loads at {:<16} {:>8}, accepted {:>7}", edition.name(), tally.loads[index], tally.accepted[index]);
    }
    let [halted, spent, full] = tally.ends;
    println!("runs                     {:>8}, halted {halted}, spent {spent}, full {full}", tally.runs);
    for number in 1..=16 {
        println!("refusal {number:>2}               {:>8}", tally.refusals[number]);
        enough &= tally.refusals[number] >= ENOUGH;
    }
    for kind in INSTRUCTION_KINDS {
        let (executed, stood) = (tally.executed[usize::from(kind)], tally.stood[usize::from(kind)]);
        println!("{kind:02X} {:<10} executed {executed:>9}, in accepted images {stood:>8}", instruction_name(kind));
        enough &= executed >= ENOUGH && stood >= ENOUGH;
    }
    enough
}

fn arguments() -> Option<(u64, usize)> {
    let (mut seed, mut count) = (1, 10_000);
    let mut given = std::env::args().skip(1);
    while let Some(name) = given.next() {
        let value = given.next()?;
        match name.as_str() {
            "--seed" => seed = value.parse().ok()?,
            "--count" => count = value.parse().ok()?,
            _ => return None,
        }
    }
    Some((seed, count))
}

fn main() {
    let Some((seed, count)) = arguments() else {
        eprintln!("usage: compare [--seed S] [--count N]");
        exit(2);
    };
    println!("compare: {} against oracle, seed {seed}, {count} sessions in each edition", Tested::NAME);
    let mut tally = Tally::new();
    let mut seeds = Random::new(seed);
    for edition in EDITIONS {
        fixed_images(edition, &mut seeds, &mut tally);
    }
    for number in 0..count {
        for edition in EDITIONS {
            let own = seeds.next();
            let name = format!("session {number}, seed of its own {own}");
            Session::<Tested>::new(edition, name, &mut tally).go(&mut Random::new(own));
        }
    }
    let enough = show_counts(&tally);
    if !enough {
        println!("compare: a refusal or an instruction came fewer than {ENOUGH} times");
    }
    println!("compare: {} comparisons, {} differences", tally.comparisons, tally.differences);
    if tally.differences > 0 || !enough {
        exit(1);
    }
}
