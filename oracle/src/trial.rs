//! What the trials ask of a box, whoever made it.

use crate::boxes::OracleBox;
use crate::checker::Refusal;
use crate::kinds::Kind;
use crate::machine::{Report, Strike};

/// The label kinds that boxes are made for.
#[derive(Clone, Copy, Debug, PartialEq, Eq)]
pub enum Edition {
    Stage,
    Mastheads,
    StageMastheads,
}

pub const EDITIONS: [Edition; 3] = [Edition::Stage, Edition::Mastheads, Edition::StageMastheads];

impl Edition {
    pub fn kind(self) -> Kind {
        match self {
            Edition::Stage => Kind::Stage,
            Edition::Mastheads => Kind::Mastheads,
            Edition::StageMastheads => Kind::pair(Kind::Stage, Kind::Mastheads),
        }
    }

    pub fn name(self) -> &'static str {
        match self {
            Edition::Stage => "stage",
            Edition::Mastheads => "mastheads",
            Edition::StageMastheads => "stage*mastheads",
        }
    }

    pub fn index(self) -> usize {
        self as usize
    }
}

pub trait Press: Sized {
    const NAME: &'static str;

    /// An empty box that is not stopped.
    fn make(edition: Edition) -> Self;
    fn load(&mut self, image: &[u32]) -> Result<(), Refusal>;
    fn run(&mut self, job: &[u32], fuel: u32, strip: &mut [Strike], sheet: &mut [u32]) -> Result<Report, u8>;
    /// The image that the box holds; an empty box holds no word.
    fn image(&self) -> &[u32];
    fn is_stopped(&self) -> bool;
}

impl Press for OracleBox {
    const NAME: &'static str = "oracle";

    fn make(edition: Edition) -> OracleBox {
        OracleBox::new(edition.kind())
    }

    fn load(&mut self, image: &[u32]) -> Result<(), Refusal> {
        OracleBox::load(self, image)
    }

    fn run(&mut self, job: &[u32], fuel: u32, strip: &mut [Strike], sheet: &mut [u32]) -> Result<Report, u8> {
        OracleBox::run(self, job, fuel, strip, sheet)
    }

    fn image(&self) -> &[u32] {
        OracleBox::image(self)
    }

    fn is_stopped(&self) -> bool {
        OracleBox::is_stopped(self)
    }
}

/// The box that the trials are about.
#[cfg(feature = "firmware")]
pub type Tested = crate::firmware::FirmwareBox;
#[cfg(not(feature = "firmware"))]
pub type Tested = OracleBox;
