//! The box under test, reached as a C static library. Thin on purpose: it only hands over the caller's slices and reads the answers.

use crate::checker::{Pass, Refusal};
use crate::machine::{self, End};
use crate::trial::{Edition, Press};

/// All zero bytes is an empty box.
#[repr(C)]
pub struct Store {
    words: [u32; 2048],
    len: usize,
    stopped: bool,
}

#[repr(C)]
#[derive(Clone, Copy)]
pub struct Strike {
    channel: u8,
    word: u32,
}

#[repr(C)]
pub struct Fault {
    number: u8,
    /// 1 layout, 2 naming, 3 flow
    pass: u8,
    place: usize,
}

#[repr(C)]
pub struct Report {
    /// 0 halted, 1 spent, 2 full
    end: u8,
    steps: u32,
    strikes: usize,
}

type MakeCall = unsafe extern "C" fn(*mut Store);
type LoadCall = unsafe extern "C" fn(*mut Store, *const u32, usize, *mut Fault) -> u8;
type RunCall =
    unsafe extern "C" fn(*mut Store, *const u32, usize, u32, *mut Strike, usize, *mut u32, usize, *mut Report) -> u8;

unsafe extern "C" {
    fn imprint_stage_make(b: *mut Store);
    fn imprint_stage_load(b: *mut Store, image: *const u32, len: usize, fault: *mut Fault) -> u8;
    fn imprint_stage_run(
        b: *mut Store,
        job: *const u32,
        job_len: usize,
        fuel: u32,
        strip: *mut Strike,
        strip_len: usize,
        sheet: *mut u32,
        sheet_len: usize,
        report: *mut Report,
    ) -> u8;

    fn imprint_mastheads_make(b: *mut Store);
    fn imprint_mastheads_load(b: *mut Store, image: *const u32, len: usize, fault: *mut Fault) -> u8;
    fn imprint_mastheads_run(
        b: *mut Store,
        job: *const u32,
        job_len: usize,
        fuel: u32,
        strip: *mut Strike,
        strip_len: usize,
        sheet: *mut u32,
        sheet_len: usize,
        report: *mut Report,
    ) -> u8;

    fn imprint_stage_mastheads_make(b: *mut Store);
    fn imprint_stage_mastheads_load(b: *mut Store, image: *const u32, len: usize, fault: *mut Fault) -> u8;
    fn imprint_stage_mastheads_run(
        b: *mut Store,
        job: *const u32,
        job_len: usize,
        fuel: u32,
        strip: *mut Strike,
        strip_len: usize,
        sheet: *mut u32,
        sheet_len: usize,
        report: *mut Report,
    ) -> u8;
}

pub struct FirmwareBox {
    store: Box<Store>,
    load: LoadCall,
    run: RunCall,
    /// The strip in the library's own layout, kept between runs so that a run need not allocate.
    strip: Vec<Strike>,
}

impl Press for FirmwareBox {
    const NAME: &'static str = "firmware";

    fn make(edition: Edition) -> FirmwareBox {
        let (make, load, run): (MakeCall, LoadCall, RunCall) = match edition {
            Edition::Stage => (imprint_stage_make, imprint_stage_load, imprint_stage_run),
            Edition::Mastheads => (imprint_mastheads_make, imprint_mastheads_load, imprint_mastheads_run),
            Edition::StageMastheads => {
                (imprint_stage_mastheads_make, imprint_stage_mastheads_load, imprint_stage_mastheads_run)
            }
        };
        // Not zero at first, so that `make` has to do what it says.
        let mut store = Box::new(Store { words: [0x3200_0000; 2048], len: 7, stopped: true });
        unsafe { make(&mut *store) };
        FirmwareBox { store, load, run, strip: Vec::new() }
    }

    fn load(&mut self, image: &[u32]) -> Result<(), Refusal> {
        let mut fault = Fault { number: 0, pass: 0, place: 0 };
        let number = unsafe { (self.load)(&mut *self.store, image.as_ptr(), image.len(), &mut fault) };
        if number == 0 {
            assert_eq!((fault.number, fault.pass, fault.place), (0, 0, 0), "a fault was written though the image was accepted");
            return Ok(());
        }
        assert_eq!(number, fault.number, "the answer and the fault have different numbers");
        let pass = match fault.pass {
            1 => Pass::Layout,
            2 => Pass::Naming,
            3 => Pass::Flow,
            other => panic!("there is no pass {other}"),
        };
        Err(Refusal { number, place: fault.place, pass })
    }

    fn run(
        &mut self,
        job: &[u32],
        fuel: u32,
        strip: &mut [machine::Strike],
        sheet: &mut [u32],
    ) -> Result<machine::Report, u8> {
        self.strip.clear();
        self.strip.extend(strip.iter().map(|strike| Strike { channel: strike.channel, word: strike.word }));
        let mut report = Report { end: 0xFF, steps: 0, strikes: 0 };
        let number = unsafe {
            (self.run)(
                &mut *self.store,
                job.as_ptr(),
                job.len(),
                fuel,
                self.strip.as_mut_ptr(),
                self.strip.len(),
                sheet.as_mut_ptr(),
                sheet.len(),
                &mut report,
            )
        };
        // The whole strip, since a refused run must leave it alone too.
        for (to, from) in strip.iter_mut().zip(&self.strip) {
            *to = machine::Strike { channel: from.channel, word: from.word };
        }
        if number != 0 {
            assert_eq!(report.end, 0xFF, "a report was written though the run was refused");
            return Err(number);
        }
        let end = match report.end {
            0 => End::Halted,
            1 => End::Spent,
            2 => End::Full,
            other => panic!("there is no end {other}"),
        };
        Ok(machine::Report { end, steps: report.steps, strikes: report.strikes })
    }

    fn image(&self) -> &[u32] {
        &self.store.words[..self.store.len.min(2048)]
    }

    fn is_stopped(&self) -> bool {
        self.store.stopped
    }
}
