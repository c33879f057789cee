//! Two printings: what a reader sees of two boxes that are given jobs which differ only in words that the reader may not see.

use crate::checker::Program;
use crate::kinds::Kind;
use crate::machine::{End, Report, Strike};

/// What a reader may see of an image's channels, cells and job.
#[derive(Clone, Debug, Default)]
pub struct Eye {
    channels: Vec<bool>,
    cells: Vec<bool>,
    job_words: Vec<bool>,
}

impl Eye {
    pub fn new(kind: &Kind, program: &Program, reader: u8) -> Eye {
        let sees = |label: u8| kind.at_or_below(label, reader);
        let cells: Vec<bool> = program.cell_types.iter().map(|of_type| sees(of_type.label)).collect();
        Eye {
            channels: program.items.channels.iter().map(|channel| sees(channel.label)).collect(),
            job_words: program.integer_cells.iter().map(|&cell| cells[cell]).collect(),
            cells,
        }
    }

    /// Whether the reader sees each word of a job.
    pub fn job_words(&self) -> &[bool] {
        &self.job_words
    }

    pub fn strikes<'a>(&'a self, strikes: &'a [Strike]) -> impl Iterator<Item = Strike> + 'a {
        strikes.iter().copied().filter(|strike| self.channels[usize::from(strike.channel)])
    }

    fn cells<'a>(&'a self, sheet: &'a [u32]) -> impl Iterator<Item = u32> + 'a {
        self.cells.iter().zip(sheet).filter(|(&seen, _)| seen).map(|(_, &word)| word)
    }
}

/// One side of a run that was not refused.
pub struct Side<'a> {
    pub report: Report,
    /// The strikes of this run.
    pub strikes: &'a [Strike],
    /// The cells as they ended.
    pub cells: &'a [u32],
}

/// Is one list a beginning of the other?
pub fn one_begins_the_other(one: &[Strike], other: &[Strike]) -> bool {
    one.iter().zip(other).all(|(a, b)| a == b)
}

/// Where both sides halted, the reader's strikes and cells are equal. Answers what differs.
pub fn differ_after_halts(eye: &Eye, one: &Side, other: &Side) -> Option<&'static str> {
    if one.report.end != End::Halted || other.report.end != End::Halted {
        return None;
    }
    if !eye.strikes(one.strikes).eq(eye.strikes(other.strikes)) {
        return Some("both sides halted, and the reader's strikes differ");
    }
    if !eye.cells(one.cells).eq(eye.cells(other.cells)) {
        return Some("both sides halted, and the reader's cells differ");
    }
    None
}
