//! The generators do what they say, and the directed programmes leak where their rule is left out.

use oracle::checker::{check, ALL_RULES};
use oracle::generate::{accepted, mutant, random_words, refused_by, well_typed, Random, Size};
use oracle::leaks::{find, DIRECTED};
use oracle::trial::EDITIONS;

#[test]
fn most_typed_images_are_accepted() {
    for edition in EDITIONS {
        let kind = edition.kind();
        let mut random = Random::new(11);
        let images: Vec<Vec<u32>> = (0..300).filter_map(|_| well_typed(&kind, &mut random, Size::Small)).collect();
        let accepted = images.iter().filter(|image| check(&kind, image).is_ok()).count();
        assert!(images.len() > 280 && accepted > 280, "{accepted} of {}", images.len());
    }
}

#[test]
fn the_same_seed_gives_the_same_images() {
    for edition in EDITIONS {
        let image = |seed| accepted(&edition.kind(), &mut Random::new(seed), Size::Small);
        assert_eq!(image(5), image(5));
        assert_ne!(image(5), image(6));
    }
}

#[test]
fn each_refusal_can_be_aimed_at() {
    for edition in EDITIONS {
        let kind = edition.kind();
        let mut random = Random::new(12);
        for number in 1..=12 {
            let hit = (0..20).any(|_| {
                let image = accepted(&kind, &mut random, Size::Small);
                refused_by(number, &kind, &mut random, &image).is_some()
            });
            // Where every code is a label there is no refusal 5.
            assert_eq!(hit, number != 5 || kind.count() < 256, "refusal {number} at {}", edition.name());
        }
    }
}

#[test]
fn no_words_make_the_check_panic() {
    let mut random = Random::new(13);
    for edition in EDITIONS {
        let kind = edition.kind();
        for _ in 0..300 {
            let image = accepted(&kind, &mut random, Size::Small);
            for _ in 0..10 {
                let _ = check(&kind, &mutant(&mut random, &image));
                let _ = check(&kind, &random_words(&mut random));
            }
        }
    }
}

#[test]
fn each_rule_keeps_a_leak_out() {
    for edition in EDITIONS {
        let kind = edition.kind();
        for case in &DIRECTED {
            let image = case.image();
            assert_eq!(check(&kind, &image).err().map(|refusal| refusal.number), Some(case.number), "{}", case.name);
            assert!(find(&kind, &image, case.without, 0).is_some(), "{}", case.name);
            assert!(find(&kind, &image, ALL_RULES, 0).is_none(), "{}", case.name);
            // A reader who may see the secret learns nothing new.
            assert!(find(&kind, &image, case.without, 1).is_none(), "{}", case.name);
        }
    }
}
