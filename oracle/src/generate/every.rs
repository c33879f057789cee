//! One small accepted image that has every instruction, written by hand: all its one-field changes try each field of each word.

use crate::text;

pub fn every_instruction() -> Vec<u32> {
    text::read(TEXT).unwrap_or_default()
}

const TEXT: &str = "
    01000000            # channel 0, which everybody sees
    01000001            # channel 1, of label 1
    02000003 11000000   # shape 0: a public integer,
             11000001   #   a secret integer,
             12010001   #   and a pointer of label 1 to a tuple of shape 1
    02000002 11000001   # shape 1: a secret integer,
             13010001   #   and code of label 1, a block of signature 1
    03000000 11000000 10000000 10000000 10000000 10000000 10000000 10000000 10000000   # signature 0: r0 is public
    03010381 11000000 10000000 10000000 10000000 10000000 10000000 10000000 10000000   # signature 1: label 1 until block 3,
             11000000                                                                  #   r0 and the slot are public
    03000001 11000000 11000001 10000000 10000000 10000000 10000000 10000000 10000000   # signature 2: r1 is secret,
             11000000                                                                  #   r0 and the slot are public
    04000300 00000000   # tuple 0, of shape 0
             00000000
             00000001   #   points to tuple 1
    04000201 00000000   # tuple 1, of shape 1
             00000001   #   holds block 1
    0500000E            # block 0
    27000003            #   push three slots
    28000002            #   pop two
    2A000000            #   the slot becomes r0
    21030000            #   r3 becomes tuple 0
    25040300            #   r4 becomes the public integer
    24000004            #   r0 becomes r0 + r4
    25050302            #   r5 becomes the pointer
    25060301            #   r6 becomes the secret
    2D010003            #   raise to label 1 until block 3
    26050600            #   the integer that r5 points to becomes r6
    22070002            #   r7 becomes block 2
    2C060700            #   go there if the secret is not 0
    25070501            #   r7 becomes the code that r5 points to
    30070000            #   go there
    05000103            # block 1, in the region
    20010007            #   r1 becomes 7
    29020000            #   r2 becomes the slot
    31000003            #   lower to block 3
    05000105            # block 2, in the region
    20010009            #   r1 becomes 9
    23020100            #   r2 becomes r1
    2E010102            #   r1 becomes r1 - r2
    2B010100            #   strike it on channel 1
    31000003            #   lower to block 3
    05000204            # block 3
    2B000000            #   strike r0 on channel 0
    2B010100            #   strike r1 on channel 1
    28000001            #   pop the slot
    32000000            #   halt
";

#[cfg(test)]
mod tests {
    use super::*;
    use crate::checker::check;
    use crate::trial::EDITIONS;
    use crate::words::INSTRUCTION_KINDS;

    #[test]
    fn has_every_instruction_and_is_accepted() {
        for edition in EDITIONS {
            let program = check(&edition.kind(), &every_instruction()).expect("the image is accepted");
            for kind in INSTRUCTION_KINDS {
                assert!(program.items.instructions.iter().any(|instruction| instruction.kind() == kind), "{kind:02X}");
            }
        }
    }
}
