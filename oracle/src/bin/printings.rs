//! Two printings of the same images, and the programmes that single rules keep out.
//!
//! `printings [--seed S] [--count N]`: N histories in each edition.

use oracle::checker::{check, decode, ALL_RULES};
use oracle::generate::{accepted, careless, mutant, Random, Size};
use oracle::kinds::Kind;
use oracle::leaks::{find, DIRECTED};
use oracle::machine::{End, Report, Strike};
use oracle::printings::{differ_after_halts, one_begins_the_other, Eye, Side};
use oracle::text::show;
use oracle::trial::{Edition, Press, Tested, EDITIONS};
use std::process::exit;

/// More steps than most programmes take that halt at all.
const PLENTY: u32 = 1500;

#[derive(Default)]
struct Tally {
    histories: usize,
    runs: usize,
    refused_runs: usize,
    hidden_words_differed: usize,
    different_steps: usize,
    halted_in_different_steps: usize,
    halted_and_seen: usize,
}

/// One of the two boxes, and what the reader saw of it since the latest accepted load.
struct Printing<P> {
    press: P,
    seen: Vec<Strike>,
}

/// The answer of one side to a run, with what it wrote.
struct Ran {
    answer: Result<Report, u8>,
    strip: Vec<Strike>,
    sheet: Vec<u32>,
}

struct History<'a, P> {
    edition: Edition,
    kind: Kind,
    reader: u8,
    random: Random,
    sides: [Printing<P>; 2],
    /// The image of the latest accepted load.
    image: Vec<u32>,
    eye: Eye,
    cells: usize,
    tally: &'a mut Tally,
}

impl<'a, P: Press> History<'a, P> {
    fn new(edition: Edition, seed: u64, tally: &'a mut Tally) -> Self {
        let side = || Printing { press: P::make(edition), seen: Vec::new() };
        History {
            edition,
            kind: edition.kind(),
            reader: 0,
            random: Random::new(seed),
            sides: [side(), side()],
            image: Vec::new(),
            eye: Eye::default(),
            cells: 0,
            tally,
        }
    }

    fn go(&mut self) -> Result<(), String> {
        self.tally.histories += 1;
        let size = if self.random.once_in(60) { Size::Large } else { Size::Small };
        let mut image = accepted(&self.kind, &mut self.random, size);
        self.reader = self.choose_reader(&image);
        for call in 0..self.random.between(4, 14) {
            let stopped = self.sides.iter().any(|side| side.press.is_stopped());
            let choice = self.random.below(if stopped { 7 } else { 15 });
            match choice {
                _ if call == 0 && !self.random.once_in(10) => self.load(&image)?,
                0 => {
                    image = accepted(&self.kind, &mut self.random, Size::Small);
                    self.load(&image)?;
                }
                1 => {
                    // Mostly refused; one that is accepted is odd in a way that no generated image is.
                    let changed = mutant(&mut self.random, &image);
                    self.load(&changed)?;
                }
                2 => {
                    let odd = careless(&self.kind, &mut self.random);
                    self.load(&odd)?;
                }
                3 | 4 => self.load(&image)?,
                _ => self.run()?,
            }
        }
        Ok(())
    }

    /// Mostly a label that the image has, so that the reader sees something and not everything.
    fn choose_reader(&mut self, image: &[u32]) -> u8 {
        let mut labels = vec![0];
        if let Ok(program) = check(&self.kind, image) {
            labels.extend(program.items.channels.iter().map(|channel| channel.label));
            labels.extend(program.cell_types.iter().map(|of_type| of_type.label));
        }
        let any = self.random.below(usize::from(self.kind.count())) as u8;
        match self.random.below(4) {
            0 => any,
            1 => 0,
            _ => labels[self.random.below(labels.len())],
        }
    }

    fn fault(&self, what: &str) -> String {
        format!("{what}\nedition {}, reader {}\nimage {}", self.edition.name(), self.reader, show(&self.image))
    }

    fn load(&mut self, image: &[u32]) -> Result<(), String> {
        let answers = [self.sides[0].press.load(image), self.sides[1].press.load(image)];
        if answers[0] != answers[1] {
            return Err(self.fault(&format!("a load was answered {:?} and {:?}: {}", answers[0], answers[1], show(image))));
        }
        if answers[0].is_ok() {
            // No verdict of the oracle's: a box that accepts too much should be caught by what it shows.
            let program = decode(&self.kind, image)
                .map_err(|refusal| self.fault(&format!("not even named rightly: {refusal:?}, {}", show(image))))?;
            self.eye = Eye::new(&self.kind, &program, self.reader);
            self.cells = program.cell_types.len();
            self.image = image.to_vec();
            for side in &mut self.sides {
                side.seen.clear();
            }
        }
        self.compare_seen("after a load")
    }

    /// (a): of the strikes since the latest accepted load that the reader sees, one side's begin the other's.
    fn compare_seen(&self, when: &str) -> Result<(), String> {
        if one_begins_the_other(&self.sides[0].seen, &self.sides[1].seen) {
            return Ok(());
        }
        let [one, other] = &self.sides;
        Err(self.fault(&format!("LEAK {when}: the reader saw {:?} and {:?}", one.seen, other.seen)))
    }

    fn run(&mut self) -> Result<(), String> {
        let jobs = self.jobs();
        let sheet_length = match self.random.below(10) {
            0 => self.random.below(self.cells + 1),
            1 => self.cells + self.random.below(5),
            _ => self.cells,
        };
        let ran = [self.print(0, &jobs[0], sheet_length), self.print(1, &jobs[1], sheet_length)];
        self.compare_seen(&format!("after a run of {jobs:?}"))?;
        match (&ran[0].answer, &ran[1].answer) {
            (Ok(one), Ok(other)) => {
                self.tally.runs += 1;
                self.tally.hidden_words_differed += usize::from(jobs[0] != jobs[1]);
                self.tally.different_steps += usize::from(one.steps != other.steps);
                self.compare_halts(&jobs, *one, *other, &ran)
            }
            _ => {
                self.tally.refused_runs += 1;
                Ok(())
            }
        }
    }

    /// (b): where both halted, what the reader sees of the run is equal.
    fn compare_halts(&mut self, jobs: &[Vec<u32>; 2], one: Report, other: Report, ran: &[Ran; 2]) -> Result<(), String> {
        let side = |report: Report, ran: &'_ Ran| (report, ran.strip[..report.strikes].to_vec(), ran.sheet.clone());
        let (a, b) = (side(one, &ran[0]), side(other, &ran[1]));
        let sides = [Side { report: a.0, strikes: &a.1, cells: &a.2 }, Side { report: b.0, strikes: &b.1, cells: &b.2 }];
        if let Some(what) = differ_after_halts(&self.eye, &sides[0], &sides[1]) {
            return Err(self.fault(&format!("LEAK after a run of {jobs:?}: {what}\n{:?} {:?}\n{:?} {:?}", a.1, a.2, b.1, b.2)));
        }
        let both = one.end == End::Halted && other.end == End::Halted;
        self.tally.halted_in_different_steps += usize::from(both && one.steps != other.steps);
        self.tally.halted_and_seen += usize::from(both && self.eye.strikes(&a.1).next().is_some());
        Ok(())
    }

    /// Two jobs of one length that agree in each word that the reader sees.
    fn jobs(&mut self) -> [Vec<u32>; 2] {
        let right = self.eye.job_words().len();
        let length = if self.random.once_in(15) { self.random.below(right + 3) } else { right };
        let mut jobs = [Vec::new(), Vec::new()];
        for index in 0..length {
            let word = self.random.job_word();
            let seen = self.eye.job_words().get(index).copied().unwrap_or(false);
            jobs[0].push(word);
            jobs[1].push(if seen { word } else { self.random.job_word() });
        }
        jobs
    }

    /// A run on one side, with a fuel, a strip and a sheet of its own.
    fn print(&mut self, side: usize, job: &[u32], sheet_length: usize) -> Ran {
        let fuel = if self.random.once_in(8) { self.random.below(60) as u32 } else { PLENTY + self.random.below(9) as u32 };
        let records = if self.random.once_in(10) { self.random.below(8) } else { 300 + self.random.below(3) };
        let filler = self.random.word();
        let mut strip = vec![Strike { channel: filler as u8, word: filler }; records];
        let mut sheet = vec![filler; sheet_length];
        let printing = &mut self.sides[side];
        let answer = printing.press.run(job, fuel, &mut strip, &mut sheet);
        if let Ok(report) = answer {
            printing.seen.extend(self.eye.strikes(&strip[..report.strikes]));
        }
        Ran { answer, strip, sheet }
    }
}

/// The programmes that single rules keep out; true if all went as it should.
fn directed() -> bool {
    let mut all_well = true;
    for case in &DIRECTED {
        let image = case.image();
        let mut failures = Vec::new();
        let mut found = String::new();
        for edition in EDITIONS {
            let kind = edition.kind();
            let mut press = Tested::make(edition);
            let refused = check(&kind, &image).err().map(|refusal| refusal.number);
            let refused_there = press.load(&image).err().map(|refusal| refusal.number);
            if refused != Some(case.number) || refused_there != refused {
                failures.push(format!("{}: refused by {refused:?} and {refused_there:?}", edition.name()));
            }
            match find(&kind, &image, case.without, 0) {
                Some(leak) => found = format!("jobs {:?} and {:?}, {}", leak.jobs[0], leak.jobs[1], leak.what),
                None => failures.push(format!("{}: no leak without the rule", edition.name())),
            }
            if find(&kind, &image, ALL_RULES, 0).is_some() {
                failures.push(format!("{}: leaks under all rules", edition.name()));
            }
        }
        if failures.is_empty() {
            println!("{}: refused {}; without the rule it leaks: {found}", case.name, case.number);
        } else {
            println!("{}: FAILED, {}", case.name, failures.join("; "));
            all_well = false;
        }
    }
    all_well
}

fn arguments() -> Option<(u64, usize)> {
    let (mut seed, mut count) = (1, 10_000);
    let mut given = std::env::args().skip(1);
    while let Some(name) = given.next() {
        let value = given.next()?;
        match name.as_str() {
            "--seed" => seed = value.parse().ok()?,
            "--count" => count = value.parse().ok()?,
            _ => return None,
        }
    }
    Some((seed, count))
}

fn main() {
    let Some((seed, count)) = arguments() else {
        eprintln!("usage: printings [--seed S] [--count N]");
        exit(2);
    };
    println!("printings: two boxes of {}, seed {seed}, {count} histories in each edition", Tested::NAME);
    let mut tally = Tally::default();
    let mut seeds = Random::new(seed);
    for number in 0..count {
        for edition in EDITIONS {
            let own = seeds.next();
            if let Err(what) = History::<Tested>::new(edition, own, &mut tally).go() {
                println!("history {number}, seed of its own {own}: {what}");
                exit(1);
            }
        }
    }
    println!("histories                                        {}", tally.histories);
    println!("runs on both sides                               {}", tally.runs);
    println!("  whose jobs differed in a hidden word           {}", tally.hidden_words_differed);
    println!("  in which the sides took different steps        {}", tally.different_steps);
    println!("  in which both halted, in different steps       {}", tally.halted_in_different_steps);
    println!("  in which both halted and the reader saw        {}", tally.halted_and_seen);
    println!("runs that a side refused                         {}", tally.refused_runs);
    if !directed() {
        exit(1);
    }
    println!("printings: {} histories, 0 leaks; {} programmes kept out", tally.histories, DIRECTED.len());
}
