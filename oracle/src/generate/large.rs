//! One large accepted image, to time loads with.

use crate::words::{word, Instruction, Type, BLOCK, CHANNEL, NONSENSE, SHAPE, SIGNATURE, TUPLE};
use Instruction::*;

const BLOCKS: u8 = 128;
/// How many instructions each block has.
const LENGTH: u8 = 14;

/// 128 blocks of 14 words, eight of which name a block: 1,024 words of kind 22 in all.
pub fn large_image() -> Vec<u32> {
    let mut words = vec![word(CHANNEL, 0, 0, 0), word(CHANNEL, 0, 0, 1)];
    words.extend([word(SHAPE, 0, 0, 2), Type::integer(0).encode(), Type::code(1, 1).encode()]);
    // Two signatures, so that what a block's code is hangs on the block.
    words.push(word(SIGNATURE, 0, 0, 0));
    words.extend([NONSENSE.encode(); 8]);
    words.push(word(SIGNATURE, 0, 0, 0));
    words.push(Type::integer(1).encode());
    words.extend([NONSENSE.encode(); 7]);
    words.extend([word(TUPLE, 0, 2, 0), 0, 1]);
    for number in 0..BLOCKS {
        words.push(word(BLOCK, 0, signature_of(number), LENGTH));
        words.extend(block(number).iter().map(|instruction| instruction.encode()));
    }
    words
}

/// Even blocks have signature 0, odd ones signature 1.
fn signature_of(block: u8) -> u8 {
    block % 2
}

fn block(number: u8) -> Vec<Instruction> {
    // Names near and far, early and late.
    let named = |step: u8| number.wrapping_mul(37).wrapping_add(step.wrapping_mul(29)) % BLOCKS;
    let mut instructions: Vec<Instruction> = (0..7).map(|step| Block { to: 1 + step % 6, block: named(step) }).collect();
    instructions.extend([
        Tuple { to: 1, tuple: 0 },
        Fetch { to: 2, pointer: 1, cell: 0 },
        Number { to: 0, value: u16::from(number) },
        Add { to: 0, left: 0, right: 2 },
        Strike { channel: 0, from: 0 },
    ]);
    let next = if number + 1 < BLOCKS { number + 1 } else { 0 };
    instructions.extend([Block { to: 7, block: next }, Jump { target: 7 }]);
    instructions
}

#[cfg(test)]
mod tests {
    use super::*;
    use crate::checker::check;
    use crate::trial::EDITIONS;

    #[test]
    fn is_large_and_accepted() {
        let image = large_image();
        assert!((1900..=2048).contains(&image.len()));
        for edition in EDITIONS {
            assert!(check(&edition.kind(), &image).is_ok());
        }
        let names = image.iter().filter(|&&word| word >> 24 == 0x22).count();
        assert_eq!(names, 1024);
    }
}
