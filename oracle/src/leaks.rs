//! Programmes that would leak if one rule were left out. Each is refused; with that one rule left out it is accepted, and two jobs are
//! found that a reader of label 0 can tell apart, though they differ only in a word of label 1.

use crate::boxes::OracleBox;
use crate::checker::{check_with, Rules, ALL_RULES};
use crate::kinds::Kind;
use crate::machine::{Report, Strike};
use crate::printings::{differ_after_halts, one_begins_the_other, Eye, Side};
use crate::text;

pub struct Directed {
    pub name: &'static str,
    /// The number by which the full rules refuse it.
    pub number: u8,
    /// All rules but the one that keeps the leak out.
    pub without: Rules,
    text: &'static str,
}

impl Directed {
    pub fn image(&self) -> Vec<u32> {
        text::read(self.text).unwrap_or_default()
    }
}

/// Two jobs that a reader tells apart.
#[derive(Debug)]
pub struct Leak {
    pub jobs: [Vec<u32>; 2],
    pub what: &'static str,
}

const FUEL: u32 = 1000;
/// The words that the search puts into each cell.
const TRIED: [u32; 3] = [0, 1, 2];

/// Looks for a leak to `reader` among small jobs, on boxes that ask `rules` only.
pub fn find(kind: &Kind, image: &[u32], rules: Rules, reader: u8) -> Option<Leak> {
    let program = check_with(kind, image, &rules).ok()?;
    let eye = Eye::new(kind, &program, reader);
    let jobs = all_jobs(eye.job_words().len());
    for one in &jobs {
        for other in &jobs {
            let agree = eye.job_words().iter().zip(one.iter().zip(other)).all(|(&seen, (a, b))| !seen || a == b);
            if agree {
                if let Some(what) = differ(kind, image, rules, &eye, [one, other]) {
                    return Some(Leak { jobs: [one.clone(), other.clone()], what });
                }
            }
        }
    }
    None
}

fn all_jobs(length: usize) -> Vec<Vec<u32>> {
    let mut jobs = vec![Vec::new()];
    for _ in 0..length {
        jobs = jobs.iter().flat_map(|job| TRIED.map(|word| [job.as_slice(), &[word]].concat())).collect();
    }
    jobs
}

fn differ(kind: &Kind, image: &[u32], rules: Rules, eye: &Eye, jobs: [&Vec<u32>; 2]) -> Option<&'static str> {
    let (one, other) = (print(kind, image, rules, jobs[0])?, print(kind, image, rules, jobs[1])?);
    let seen: [Vec<Strike>; 2] = [eye.strikes(&one.1).collect(), eye.strikes(&other.1).collect()];
    if !one_begins_the_other(&seen[0], &seen[1]) {
        return Some("neither side's strikes begin the other's");
    }
    differ_after_halts(
        eye,
        &Side { report: one.0, strikes: &one.1, cells: &one.2 },
        &Side { report: other.0, strikes: &other.1, cells: &other.2 },
    )
}

/// One run in a new box: its report, strikes and cells.
fn print(kind: &Kind, image: &[u32], rules: Rules, job: &[u32]) -> Option<(Report, Vec<Strike>, Vec<u32>)> {
    let mut press = OracleBox::lenient(kind.clone(), rules);
    press.load(image).ok()?;
    let mut strip = vec![Strike::default(); 100];
    let mut sheet = vec![0; 256];
    let report = press.run(job, FUEL, &mut strip, &mut sheet).ok()?;
    strip.truncate(report.strikes);
    Some((report, strip, sheet))
}

pub const DIRECTED: [Directed; 9] = [
    Directed {
        name: "a store through a higher pointer",
        number: 10,
        without: Rules { store_pointer_label: false, ..ALL_RULES },
        text: "
            01000000            # channel 0, which everybody sees
            02000001 11000000   # shape 0: a public integer
            02000002 11000001   # shape 1: a secret integer,
                     12000001   #   and a pointer of label 1 to a tuple of shape 0
            03000000 10000000 10000000 10000000 10000000 10000000 10000000 10000000 10000000   # signature 0: empty context
            03010280 10000000 10000000 10000000 10000000 10000000 10000000 10000000 10000000   # signature 1: label 1 until block 2
            04000100 00000000   # tuple 0, of shape 0
            04000100 00000000   # tuple 1, of shape 0
            04000201 00000000   # tuple 2, of shape 1: the secret,
                     00000000   #   and a pointer to tuple 0
            05000006            # block 0
            2D010002            #   raise to label 1 until block 2
            21000002            #   r0 becomes tuple 2
            25010000            #   r1 becomes the secret
            22020001            #   r2 becomes block 1
            2C010200            #   go there if the secret is not 0
            31000002            #   lower to block 2
            05000104            # block 1, in the region
            21000002            #   r0 becomes tuple 2
            21030001            #   r3 becomes tuple 1
            26000301            #   the pointer points to tuple 1 from now on
            31000002            #   lower to block 2
            05000008            # block 2
            21000002            #   r0 becomes tuple 2
            25010001            #   r1 becomes the pointer, of label 1
            20020007            #   r2 becomes 7
            26010200            #   7 goes to where the pointer points: refused here
            21000000            #   r0 becomes tuple 0
            25030000            #   r3 becomes its cell, of label 0
            2B000300            #   strike it
            32000000            #   halt
        ",
    },
    Directed {
        name: "a register written in a raised region and read after the lower",
        number: 10,
        without: Rules { context_joins_registers: false, ..ALL_RULES },
        text: "
            01000000            # channel 0, which everybody sees
            02000001 11000001   # shape 0: the secret
            03000000 10000000 10000000 10000000 10000000 10000000 10000000 10000000 10000000   # signature 0: nothing known
            03010280 11000000 10000000 10000000 10000000 10000000 10000000 10000000 10000000   # signature 1: label 1 until block 2
            03000000 11000000 10000000 10000000 10000000 10000000 10000000 10000000 10000000   # signature 2: r0 is public
            04000100 00000000   # tuple 0
            05000007            # block 0
            20000001            #   r0 becomes 1, public
            2D010002            #   raise to label 1 until block 2
            21010000            #   r1 becomes tuple 0
            25010100            #   r1 becomes the secret
            22020001            #   r2 becomes block 1
            2C010200            #   go there if the secret is not 0
            31000002            #   lower to block 2; r0 is as it was
            05000102            # block 1, in the region
            20000002            #   r0 becomes 2, of label 1
            31000002            #   lower to block 2, which wants r0 public: refused here
            05000202            # block 2
            2B000000            #   strike r0
            32000000            #   halt
        ",
    },
    Directed {
        name: "a slot written in a raised region and read after the lower",
        number: 10,
        without: Rules { context_joins_slots: false, ..ALL_RULES },
        text: "
            01000000            # channel 0, which everybody sees
            02000001 11000001   # shape 0: the secret
            03000000 10000000 10000000 10000000 10000000 10000000 10000000 10000000 10000000   # signature 0: nothing known
            03010281 10000000 10000000 10000000 11000000 10000000 10000000 10000000 10000000   # signature 1: label 1 until block 2,
                     11000000                                                                  #   r3 and the slot are public
            03000001 10000000 10000000 10000000 10000000 10000000 10000000 10000000 10000000   # signature 2:
                     11000000                                                                  #   the slot is public
            04000100 00000000   # tuple 0
            0500000A            # block 0
            27000001            #   push a slot
            20000001            #   r0 becomes 1
            2A000000            #   the slot becomes 1, public
            20030002            #   r3 becomes 2, public
            2D010002            #   raise to label 1 until block 2
            21010000            #   r1 becomes tuple 0
            25010100            #   r1 becomes the secret
            22020001            #   r2 becomes block 1
            2C010200            #   go there if the secret is not 0
            31000002            #   lower to block 2; the slot is as it was
            05000102            # block 1, in the region
            2A000300            #   the slot becomes 2, of label 1
            31000002            #   lower to block 2, which wants the slot public: refused here
            05000203            # block 2
            29000000            #   r0 becomes the slot
            2B000000            #   strike it
            32000000            #   halt
        ",
    },
    Directed {
        name: "a raise until a block of another context",
        number: 11,
        without: Rules { raise_context: false, ..ALL_RULES },
        text: "
            01000000            # channel 0, which everybody sees
            02000001 11000001   # shape 0: the secret
            03000000 10000000 10000000 10000000 10000000 10000000 10000000 10000000 10000000   # signature 0: empty context
            03010280 10000000 10000000 10000000 10000000 10000000 10000000 10000000 10000000   # signature 1: label 1 until block 2
            04000100 00000000   # tuple 0
            05000006            # block 0
            2D010002            #   raise to label 1 until block 2
            21000000            #   r0 becomes tuple 0
            25010000            #   r1 becomes the secret
            22020001            #   r2 becomes block 1
            2C010200            #   go there if the secret is not 0
            31000002            #   lower to block 2
            05000102            # block 1, in the region
            2D010003            #   raise until block 3, whose context is empty while the present one is not: refused here
            31000003            #   lower to block 3
            05000003            # block 2
            20000002            #   r0 becomes 2
            2B000000            #   strike it
            32000000            #   halt
            05000003            # block 3
            20000003            #   r0 becomes 3
            2B000000            #   strike it
            32000000            #   halt
        ",
    },
    Directed {
        name: "a branch on a secret in a low context",
        number: 10,
        without: Rules { branch_label: false, ..ALL_RULES },
        text: "
            01000000            # channel 0, which everybody sees
            02000001 11000001   # shape 0: the secret
            03000000 10000000 10000000 10000000 10000000 10000000 10000000 10000000 10000000   # signature 0: empty context
            04000100 00000000   # tuple 0
            05000007            # block 0
            21000000            #   r0 becomes tuple 0
            25010000            #   r1 becomes the secret
            22020001            #   r2 becomes block 1
            2C010200            #   go there if the secret is not 0: refused here
            20000002            #   r0 becomes 2
            2B000000            #   strike it
            32000000            #   halt
            05000003            # block 1
            20000003            #   r0 becomes 3
            2B000000            #   strike it
            32000000            #   halt
        ",
    },
    Directed {
        name: "a jump on a secret in a low context",
        number: 10,
        without: Rules { jump_label: false, ..ALL_RULES },
        text: "
            01000000            # channel 0, which everybody sees
            02000002 11000001   # shape 0: the secret,
                     13000001   #   and code of label 1, a block of signature 0
            03000000 10000000 10000000 10000000 10000000 10000000 10000000 10000000 10000000   # signature 0: empty context
            03010280 10000000 10000000 10000000 10000000 10000000 10000000 10000000 10000000   # signature 1: label 1 until block 2
            04000200 00000000   # tuple 0: the secret,
                     00000003   #   and block 3
            05000006            # block 0
            2D010002            #   raise to label 1 until block 2
            21000000            #   r0 becomes tuple 0
            25010000            #   r1 becomes the secret
            22020001            #   r2 becomes block 1
            2C010200            #   go there if the secret is not 0
            31000002            #   lower to block 2
            05000104            # block 1, in the region
            21000000            #   r0 becomes tuple 0
            22010004            #   r1 becomes block 4
            26000101            #   the code cell holds block 4 from now on
            31000002            #   lower to block 2
            05000003            # block 2
            21000000            #   r0 becomes tuple 0
            25010001            #   r1 becomes the code, of label 1
            30010000            #   go there: refused here
            05000003            # block 3
            20000003            #   r0 becomes 3
            2B000000            #   strike it
            32000000            #   halt
            05000003            # block 4
            20000004            #   r0 becomes 4
            2B000000            #   strike it
            32000000            #   halt
        ",
    },
    Directed {
        name: "a halt in a raised context",
        number: 11,
        without: Rules { halt_context: false, ..ALL_RULES },
        text: "
            01000000            # channel 0, which everybody sees
            02000001 11000001   # shape 0: the secret
            03000000 10000000 10000000 10000000 10000000 10000000 10000000 10000000 10000000   # signature 0: empty context
            03010280 10000000 10000000 10000000 10000000 10000000 10000000 10000000 10000000   # signature 1: label 1 until block 2
            04000100 00000000   # tuple 0
            05000006            # block 0
            2D010002            #   raise to label 1 until block 2
            21000000            #   r0 becomes tuple 0
            25010000            #   r1 becomes the secret
            22020001            #   r2 becomes block 1
            2C010200            #   go there if the secret is not 0
            31000002            #   lower to block 2
            05000101            # block 1, in the region
            32000000            #   halt: refused here
            05000003            # block 2
            20000002            #   r0 becomes 2
            2B000000            #   strike it
            32000000            #   halt
        ",
    },
    Directed {
        name: "a transfer between contexts that differ only in label",
        number: 11,
        without: Rules { transfer_label: false, ..ALL_RULES },
        text: "
            01000000            # channel 0, which everybody sees
            02000001 11000001   # shape 0: the secret
            03000000 10000000 10000000 10000000 10000000 10000000 10000000 10000000 10000000   # signature 0: empty context
            03010280 10000000 10000000 10000000 10000000 10000000 10000000 10000000 10000000   # signature 1: label 1 until block 2
            03000280 10000000 10000000 10000000 10000000 10000000 10000000 10000000 10000000   # signature 2: label 0 until block 2
            04000100 00000000   # tuple 0
            05000006            # block 0
            2D010002            #   raise to label 1 until block 2
            21000000            #   r0 becomes tuple 0
            25010000            #   r1 becomes the secret
            22020001            #   r2 becomes block 1
            2C010200            #   go there if the secret is not 0
            31000002            #   lower to block 2
            05000102            # block 1, in the region
            22000003            #   r0 becomes block 3
            30000000            #   go there, where the context has label 0: refused here
            05000001            # block 2
            32000000            #   halt
            05000203            # block 3
            20010005            #   r1 becomes 5, of label 0
            2B000100            #   strike it
            31000002            #   lower to block 2
        ",
    },
    Directed {
        name: "a transfer between contexts that differ only in postdominator",
        number: 11,
        without: Rules { transfer_postdominator: false, ..ALL_RULES },
        text: "
            01000000            # channel 0, which everybody sees
            02000001 11000001   # shape 0: the secret
            03000000 10000000 10000000 10000000 10000000 10000000 10000000 10000000 10000000   # signature 0: empty context
            03010280 10000000 10000000 10000000 10000000 10000000 10000000 10000000 10000000   # signature 1: label 1 until block 2
            03010480 10000000 10000000 10000000 10000000 10000000 10000000 10000000 10000000   # signature 2: label 1 until block 4
            04000100 00000000   # tuple 0
            05000006            # block 0
            2D010002            #   raise to label 1 until block 2
            21000000            #   r0 becomes tuple 0
            25010000            #   r1 becomes the secret
            22020001            #   r2 becomes block 1
            2C010200            #   go there if the secret is not 0
            31000002            #   lower to block 2
            05000102            # block 1, in the region
            22000003            #   r0 becomes block 3
            30000000            #   go there, where the context ends at block 4: refused here
            05000003            # block 2
            20000002            #   r0 becomes 2
            2B000000            #   strike it
            32000000            #   halt
            05000201            # block 3
            31000004            #   lower to block 4
            05000003            # block 4
            20000004            #   r0 becomes 4
            2B000000            #   strike it
            32000000            #   halt
        ",
    },
];
