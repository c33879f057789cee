//! The box: refused runs in their order, stops, and what a call leaves alone.

use oracle::boxes::OracleBox;
use oracle::kinds::Kind;
use oracle::machine::{End, Strike};
use oracle::text::{card, cut_short, secret_branch};

const FILLED: Strike = Strike { channel: 0xEE, word: 0xEEEE_EEEE };

fn loaded(image: &[u32]) -> OracleBox {
    let mut press = OracleBox::new(Kind::Stage);
    assert_eq!(press.load(image), Ok(()));
    press
}

#[test]
fn refused_runs_answer_the_first_that_fits() {
    let (mut strip, mut sheet) = ([FILLED; 2], [0xEE; 1]);
    let mut press = OracleBox::new(Kind::Stage);
    assert_eq!(press.run(&[], 6, &mut strip, &mut sheet), Err(13));
    assert!(press.load(&cut_short()).is_err());
    assert_eq!(press.run(&[], 6, &mut strip, &mut sheet), Err(13));

    let mut press = loaded(&card());
    assert_eq!(press.run(&[7], 6, &mut strip, &mut sheet), Err(15));
    assert_eq!(press.run(&[7, 9, 1], 6, &mut strip, &mut sheet), Err(15));
    assert_eq!(press.run(&[7, 9], 6, &mut strip, &mut sheet), Err(16));
    assert!(!press.is_stopped());
    assert_eq!((strip, sheet), ([FILLED; 2], [0xEE]));

    assert!(press.run(&[7, 9], 1, &mut strip, &mut [0; 2]).is_ok());
    assert!(press.is_stopped());
    assert_eq!(press.run(&[], 6, &mut strip, &mut sheet), Err(14));
    assert_eq!((strip, sheet), ([FILLED; 2], [0xEE]));
}

#[test]
fn a_stop_lasts_until_an_accepted_load() {
    let mut press = loaded(&card());
    let (mut strip, mut sheet) = ([FILLED; 2], [0; 2]);
    assert!(press.run(&[7, 9], 0, &mut strip, &mut sheet).is_ok());
    assert!(press.load(&cut_short()).is_err());
    assert_eq!(press.image(), card());
    assert_eq!(press.run(&[7, 9], 6, &mut strip, &mut sheet), Err(14));
    assert_eq!(press.load(&card()), Ok(()));
    assert!(press.run(&[7, 9], 6, &mut strip, &mut sheet).is_ok());
    assert!(press.run(&[7, 9], 6, &mut strip, &mut sheet).is_ok(), "after a halt the box runs again");
}

#[test]
fn the_rest_of_strip_and_sheet_stays() {
    let (mut strip, mut sheet) = ([FILLED; 4], [0xEE; 5]);
    let report = loaded(&card()).run(&[7, 9], 6, &mut strip, &mut sheet).expect("the run is not refused");
    assert_eq!(report.strikes, 2);
    assert_eq!(strip[2..], [FILLED; 2]);
    assert_eq!(sheet, [7, 9, 0xEE, 0xEE, 0xEE]);
}

#[test]
fn a_raise_is_not_counted() {
    // Block 0 has six words, the raise among them; a taken branch leaves out its lower and adds the two words of block 1; then come
    // the three of block 2.
    for (secret, steps) in [(0, 8), (5, 9)] {
        let (mut strip, mut sheet) = ([FILLED; 1], [0; 1]);
        let report = loaded(&secret_branch()).run(&[secret], 100, &mut strip, &mut sheet).expect("the run is not refused");
        assert_eq!((report.end, report.steps), (End::Halted, steps));
        assert_eq!(strip, [Strike { channel: 0, word: 42 }]);
    }
}

#[test]
fn an_image_without_tuples_takes_the_empty_job_and_any_sheet() {
    let mut image = vec![0x03000000];
    image.extend([0x10000000; 8]);
    image.extend([0x05000001, 0x32000000]);
    let report = loaded(&image).run(&[], 1, &mut [], &mut []).expect("the run is not refused");
    assert_eq!((report.end, report.steps), (End::Halted, 1));
}
