//! Changes of images, and random words.

use super::Random;
use crate::words::{fields, word, Instruction, Type, BLOCK, CHANNEL, INSTRUCTION_KINDS, NONSENSE, SHAPE, SIGNATURE, TUPLE};
use Instruction::*;

/// Every image that differs from this one in one byte of one word.
pub fn one_field_changes(image: &[u32]) -> impl Iterator<Item = Vec<u32>> + '_ {
    (0..image.len()).flat_map(move |place| {
        (0..4).flat_map(move |field| {
            (1..=255u8).map(move |difference| {
                let mut changed = image.to_vec();
                changed[place] ^= u32::from(difference) << (8 * field);
                changed
            })
        })
    })
}

/// One or several changes of an image.
pub fn mutant(random: &mut Random, image: &[u32]) -> Vec<u32> {
    let mut words = image.to_vec();
    let changes = if random.once_in(4) { random.between(2, 4) } else { 1 };
    for _ in 0..changes {
        change(random, &mut words);
    }
    words
}

fn change(random: &mut Random, words: &mut Vec<u32>) {
    if words.is_empty() {
        words.push(plausible_word(random));
        return;
    }
    let place = random.below(words.len());
    match random.below(16) {
        0..=5 => change_field(random, &mut words[place]),
        6..=9 => change_instruction(random, words),
        10 => {
            let other = random.below(words.len());
            words.swap(place, other);
        }
        11 => {
            let other = (place + 1) % words.len();
            words.swap(place, other);
        }
        12 => {
            words.remove(place);
        }
        13 => {
            let new = if random.once_in(2) { words[random.below(words.len())] } else { plausible_word(random) };
            words.insert(place, new);
        }
        14 => words[place] = plausible_word(random),
        _ => words.truncate(place),
    }
}

fn change_field(random: &mut Random, word: &mut u32) {
    let shift = 8 * random.below(4);
    let old = (*word >> shift) as u8;
    let new = match random.below(5) {
        0 => old.wrapping_add(1),
        1 => old.wrapping_sub(1),
        2 => old ^ 1 << random.below(8),
        3 => random.below(9) as u8,
        _ => random.byte(),
    };
    *word = *word & !(0xFF << shift) | u32::from(new) << shift;
}

/// Puts another instruction, with operands that could be, in the place of one: more often than other changes this reaches the last pass.
fn change_instruction(random: &mut Random, words: &mut [u32]) {
    let places: Vec<usize> = (0..words.len()).filter(|&p| INSTRUCTION_KINDS.contains(&fields(words[p]).0)).collect();
    let Some(place) = random.pick(&places) else { return };
    let ends = fields(words[place]).0 >= 0x30;
    let new = if ends { ending_instruction(random) } else { plain_instruction(random) };
    words[place] = new.encode();
}

fn ending_instruction(random: &mut Random) -> Instruction {
    match random.below(3) {
        0 => Jump { target: random.below(8) as u8 },
        1 => Lower { block: random.below(6) as u8 },
        _ => Halt,
    }
}

fn plain_instruction(random: &mut Random) -> Instruction {
    let mut small = |bound: usize| random.below(bound) as u8;
    let (a, b, c) = (small(8), small(8), small(8));
    let (few, block) = (small(4), small(6));
    match small(15) {
        0 => Number { to: a, value: u16::from(b) },
        1 => Tuple { to: a, tuple: few },
        2 => Block { to: a, block },
        3 => Copy { to: a, from: b },
        4 => Add { to: a, left: b, right: c },
        5 => Fetch { to: a, pointer: b, cell: few },
        6 => Store { pointer: a, from: b, cell: few },
        7 => Push { count: c },
        8 => Pop { count: few },
        9 => Peek { to: a, slot: few },
        10 => Poke { from: b, slot: few },
        11 => Strike { channel: few, from: b },
        12 => Branch { test: a, target: b },
        13 => Raise { label: few, until: block },
        _ => Subtract { to: a, left: b, right: c },
    }
}

/// A word that could stand somewhere in an image.
fn plausible_word(random: &mut Random) -> u32 {
    const KINDS: [u8; 10] = [CHANNEL, SHAPE, SIGNATURE, TUPLE, BLOCK, 0x10, 0x11, 0x12, 0x13, 0x2F];
    match random.below(8) {
        0 => random.word(),
        1 | 2 => plain_instruction(random).encode(),
        3 => ending_instruction(random).encode(),
        _ => {
            let kind = KINDS[random.below(KINDS.len())];
            let mut field = |often_zero: usize| if random.below(often_zero) == 0 { random.below(4) as u8 } else { 0 };
            word(kind, field(4), field(4), field(1))
        }
    }
}

/// Random words: now and then wholly random, mostly heads with about as many words behind them as they say.
pub fn random_words(random: &mut Random) -> Vec<u32> {
    let mut words = Vec::new();
    if random.once_in(10) {
        for _ in 0..random.below(40) {
            words.push(random.word());
        }
        return words;
    }
    for kind in [CHANNEL, SHAPE, SIGNATURE, TUPLE, BLOCK] {
        for _ in 0..random.between(usize::from(kind == BLOCK), 2) {
            random_item(random, kind, &mut words);
        }
    }
    if random.once_in(3) {
        change(random, &mut words);
    }
    words
}

fn random_item(random: &mut Random, kind: u8, words: &mut Vec<u32>) {
    let few = random.between(1, 4) as u8;
    let number = random.below(2) as u8;
    let random_type = |random: &mut Random, nonsense: bool| match random.below(4) {
        0 if nonsense => NONSENSE.encode(),
        1 => Type::pointer(random.below(2) as u8, random.below(3) as u8).encode(),
        2 => Type::code(random.below(2) as u8, random.below(3) as u8).encode(),
        _ => Type::integer(random.below(3) as u8).encode(),
    };
    match kind {
        CHANNEL => words.push(word(CHANNEL, 0, 0, number)),
        SHAPE => {
            words.push(word(SHAPE, 0, 0, few));
            words.extend((0..few).map(|_| random_type(random, false)));
        }
        SIGNATURE => {
            let depth = if random.once_in(3) { number } else { 0 };
            let raised = random.once_in(4);
            words.push(if raised { word(SIGNATURE, number, number, depth | 0x80) } else { word(SIGNATURE, 0, 0, depth) });
            words.extend((0..8 + depth).map(|_| if random.once_in(3) { random_type(random, true) } else { NONSENSE.encode() }));
        }
        TUPLE => {
            words.push(word(TUPLE, 0, few, number));
            words.extend((0..few).map(|_| random.below(2) as u32));
        }
        _ => {
            words.push(word(BLOCK, 0, number, few));
            words.extend((1..few).map(|_| plain_instruction(random).encode()));
            words.push(ending_instruction(random).encode());
        }
    }
}
