//! The oracle's own box (`docs/box.md`).

use crate::checker::{check_with, Program, Refusal, Rules, ALL_RULES};
use crate::kinds::Kind;
use crate::machine::{self, End, Report, Strike};

pub struct OracleBox {
    kind: Kind,
    rules: Rules,
    image: Vec<u32>,
    /// None: the box is empty.
    program: Option<Program>,
    stopped: bool,
}

impl OracleBox {
    pub fn new(kind: Kind) -> OracleBox {
        OracleBox::lenient(kind, ALL_RULES)
    }

    /// A box that asks the given rules only, for the directed leak trials.
    pub fn lenient(kind: Kind, rules: Rules) -> OracleBox {
        OracleBox { kind, rules, image: Vec::new(), program: None, stopped: false }
    }

    pub fn kind(&self) -> &Kind {
        &self.kind
    }

    /// The image that the box holds; an empty box holds no word.
    pub fn image(&self) -> &[u32] {
        &self.image
    }

    pub fn program(&self) -> Option<&Program> {
        self.program.as_ref()
    }

    pub fn is_stopped(&self) -> bool {
        self.stopped
    }

    pub fn load(&mut self, image: &[u32]) -> Result<(), Refusal> {
        let program = check_with(&self.kind, image, &self.rules)?;
        self.image.clear();
        self.image.extend_from_slice(image);
        self.program = Some(program);
        self.stopped = false;
        Ok(())
    }

    /// A run, or the number of its refusal, 13 to 16.
    pub fn run(&mut self, job: &[u32], fuel: u32, strip: &mut [Strike], sheet: &mut [u32]) -> Result<Report, u8> {
        self.run_watched(job, fuel, strip, sheet, |_| ())
    }

    pub fn run_watched(
        &mut self,
        job: &[u32],
        fuel: u32,
        strip: &mut [Strike],
        sheet: &mut [u32],
        watch: impl FnMut(u8),
    ) -> Result<Report, u8> {
        let Some(program) = &self.program else {
            return Err(13);
        };
        if self.stopped {
            return Err(14);
        }
        if job.len() != program.integer_cells.len() {
            return Err(15);
        }
        if sheet.len() < program.cell_types.len() {
            return Err(16);
        }
        let report = machine::run(program, job, fuel, strip, sheet, watch);
        self.stopped = report.end != End::Halted;
        Ok(report)
    }
}
