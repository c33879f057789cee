//! The card: its rows of `refusals.md`, and its three runs of `machine.md`.

use oracle::boxes::OracleBox;
use oracle::checker::{check, Pass, Refusal};
use oracle::kinds::Kind;
use oracle::machine::{End, Report, Strike};
use oracle::text::{card, card_rows, cut_short, secret_branch, shut_out};

fn answer(image: &[u32]) -> Option<(u8, usize, Pass)> {
    check(&Kind::Stage, image).err().map(|Refusal { number, place, pass }| (number, place, pass))
}

#[test]
fn the_card_has_24_words_and_is_accepted() {
    assert_eq!(card().len(), 24);
    assert_eq!(answer(&card()), None);
}

#[test]
fn rows_of_the_page() {
    let mut long = card();
    long.resize(2049, 0);
    assert_eq!(answer(&long), Some((1, 0, Pass::Layout)));

    let changes: [(&[(usize, u32)], u8, usize, Pass); 11] = [
        (&[(18, 0x21000100)], 2, 18, Pass::Layout),
        (&[(17, 0x05000000)], 3, 17, Pass::Layout),
        (&[(18, 0x21080000)], 4, 18, Pass::Naming),
        (&[(3, 0x11000010)], 5, 3, Pass::Naming),
        (&[(6, 0x12000000)], 6, 17, Pass::Naming),
        (&[(15, 0x00000001)], 7, 15, Pass::Naming),
        (&[(20, 0x2B000200)], 8, 20, Pass::Flow),
        (&[(18, 0x28000001)], 9, 18, Pass::Flow),
        (&[(22, 0x2B000100)], 10, 22, Pass::Flow),
        (&[(23, 0x31000000)], 11, 23, Pass::Flow),
        (&[(21, 0x27000001), (22, 0x22010000), (23, 0x30010000)], 12, 23, Pass::Flow),
    ];
    let rows = card_rows();
    assert_eq!(rows.len(), 12);
    assert_eq!(rows[0], card());
    for ((words, number, place, pass), row) in changes.into_iter().zip(&rows[1..]) {
        let mut image = card();
        for &(at, word) in words {
            image[at] = word;
        }
        assert_eq!(&image, row);
        assert_eq!(answer(&image), Some((number, place, pass)));
    }
}

#[test]
fn other_examples() {
    assert_eq!(answer(&secret_branch()), None);
    assert_eq!(answer(&cut_short()), Some((2, 13, Pass::Layout)));
    let numbers: Vec<Option<u8>> = shut_out().iter().map(|image| answer(image).map(|(number, _, _)| number)).collect();
    assert_eq!(numbers, [10, 10, 11, 10, 11, 11, 11].map(Some));
}

/// The card's job with a fuel and a strip: the report, the strikes and the cells.
fn run(fuel: u32, records: usize) -> (Report, Vec<(u8, u32)>, [u32; 2]) {
    let mut press = OracleBox::new(Kind::Stage);
    assert_eq!(press.load(&card()), Ok(()));
    let mut strip = vec![Strike::default(); records];
    let mut sheet = [0; 2];
    let report = press.run(&[7, 9], fuel, &mut strip, &mut sheet).expect("the run is not refused");
    assert_eq!(press.is_stopped(), report.end != End::Halted);
    let strikes = strip[..report.strikes].iter().map(|strike| (strike.channel, strike.word)).collect();
    (report, strikes, sheet)
}

#[test]
fn runs_of_the_page() {
    let report = |end, steps, strikes| Report { end, steps, strikes };
    assert_eq!(run(6, 2), (report(End::Halted, 6, 2), vec![(0, 9), (1, 7)], [7, 9]));
    assert_eq!(run(5, 2), (report(End::Spent, 5, 2), vec![(0, 9), (1, 7)], [7, 9]));
    assert_eq!(run(6, 1), (report(End::Full, 4, 1), vec![(0, 9)], [7, 9]));
}

#[test]
fn spent_comes_before_full_and_no_fuel_is_spent() {
    // The third word is a strike: with fuel for two words and no strip, the fuel answers.
    assert_eq!(run(2, 0).0, Report { end: End::Spent, steps: 2, strikes: 0 });
    assert_eq!(run(3, 0).0, Report { end: End::Full, steps: 2, strikes: 0 });
    assert_eq!(run(0, 0), (Report { end: End::Spent, steps: 0, strikes: 0 }, vec![], [7, 9]));
}
