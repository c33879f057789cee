//! Words, their kinds and fields, type words and instructions (`docs/image-format.md`).

pub const CHANNEL: u8 = 0x01;
pub const SHAPE: u8 = 0x02;
pub const SIGNATURE: u8 = 0x03;
pub const TUPLE: u8 = 0x04;
pub const BLOCK: u8 = 0x05;

/// Every kind of instruction.
pub const INSTRUCTION_KINDS: [u8; 18] = [
    0x20, 0x21, 0x22, 0x23, 0x24, 0x25, 0x26, 0x27, 0x28, 0x29, 0x2A, 0x2B, 0x2C, 0x2D, 0x2E, 0x30, 0x31, 0x32,
];

/// The name of an instruction kind, for printing.
pub fn instruction_name(kind: u8) -> &'static str {
    match kind {
        0x20 => "number",
        0x21 => "tuple",
        0x22 => "block",
        0x23 => "copy",
        0x24 => "add",
        0x25 => "fetch",
        0x26 => "store",
        0x27 => "push",
        0x28 => "pop",
        0x29 => "peek",
        0x2A => "poke",
        0x2B => "strike",
        0x2C => "branch",
        0x2D => "raise",
        0x2E => "subtract",
        0x30 => "jump",
        0x31 => "lower",
        0x32 => "halt",
        _ => "?",
    }
}

/// The four bytes of a word: its kind and its fields a, b, c.
pub fn fields(word: u32) -> (u8, u8, u8, u8) {
    let [kind, a, b, c] = word.to_be_bytes();
    (kind, a, b, c)
}

pub fn word(kind: u8, a: u8, b: u8, c: u8) -> u32 {
    u32::from_be_bytes([kind, a, b, c])
}

/// What a type word says but for its label: the sort, and the number of the shape or signature. "Sort and number" of the pages.
#[derive(Clone, Copy, Debug, PartialEq, Eq)]
pub enum Sort {
    Nonsense,
    Integer,
    Pointer(u8),
    Code(u8),
}

/// A type. Nonsense has label 0, which nothing ever asks for.
#[derive(Clone, Copy, Debug, PartialEq, Eq)]
pub struct Type {
    pub sort: Sort,
    pub label: u8,
}

pub const NONSENSE: Type = Type { sort: Sort::Nonsense, label: 0 };

impl Type {
    pub fn new(sort: Sort, label: u8) -> Type {
        match sort {
            Sort::Nonsense => NONSENSE,
            _ => Type { sort, label },
        }
    }

    pub fn integer(label: u8) -> Type {
        Type::new(Sort::Integer, label)
    }

    pub fn pointer(shape: u8, label: u8) -> Type {
        Type::new(Sort::Pointer(shape), label)
    }

    pub fn code(signature: u8, label: u8) -> Type {
        Type::new(Sort::Code(signature), label)
    }

    /// `None` if the word is no type word, or has a field set that it does not name.
    pub fn decode(word: u32) -> Option<Type> {
        match fields(word) {
            (0x10, 0, 0, 0) => Some(NONSENSE),
            (0x11, 0, 0, label) => Some(Type::integer(label)),
            (0x12, shape, 0, label) => Some(Type::pointer(shape, label)),
            (0x13, signature, 0, label) => Some(Type::code(signature, label)),
            _ => None,
        }
    }

    pub fn encode(self) -> u32 {
        match self.sort {
            Sort::Nonsense => word(0x10, 0, 0, 0),
            Sort::Integer => word(0x11, 0, 0, self.label),
            Sort::Pointer(shape) => word(0x12, shape, 0, self.label),
            Sort::Code(signature) => word(0x13, signature, 0, self.label),
        }
    }
}

#[derive(Clone, Copy, Debug, PartialEq, Eq)]
pub enum Instruction {
    Number { to: u8, value: u16 },
    Tuple { to: u8, tuple: u8 },
    Block { to: u8, block: u8 },
    Copy { to: u8, from: u8 },
    Add { to: u8, left: u8, right: u8 },
    Subtract { to: u8, left: u8, right: u8 },
    Fetch { to: u8, pointer: u8, cell: u8 },
    Store { pointer: u8, from: u8, cell: u8 },
    Push { count: u8 },
    Pop { count: u8 },
    Peek { to: u8, slot: u8 },
    Poke { from: u8, slot: u8 },
    Strike { channel: u8, from: u8 },
    Branch { test: u8, target: u8 },
    Raise { label: u8, until: u8 },
    Jump { target: u8 },
    Lower { block: u8 },
    Halt,
}

use Instruction::*;

impl Instruction {
    /// `None` if the word is no instruction, or has a field set that it does not name.
    pub fn decode(word: u32) -> Option<Instruction> {
        Some(match fields(word) {
            (0x20, to, b, c) => Number { to, value: u16::from_be_bytes([b, c]) },
            (0x21, to, 0, tuple) => Tuple { to, tuple },
            (0x22, to, 0, block) => Block { to, block },
            (0x23, to, from, 0) => Copy { to, from },
            (0x24, to, left, right) => Add { to, left, right },
            (0x25, to, pointer, cell) => Fetch { to, pointer, cell },
            (0x26, pointer, from, cell) => Store { pointer, from, cell },
            (0x27, 0, 0, count) => Push { count },
            (0x28, 0, 0, count) => Pop { count },
            (0x29, to, 0, slot) => Peek { to, slot },
            (0x2A, 0, from, slot) => Poke { from, slot },
            (0x2B, channel, from, 0) => Strike { channel, from },
            (0x2C, test, target, 0) => Branch { test, target },
            (0x2D, label, 0, until) => Raise { label, until },
            (0x2E, to, left, right) => Subtract { to, left, right },
            (0x30, target, 0, 0) => Jump { target },
            (0x31, 0, 0, block) => Lower { block },
            (0x32, 0, 0, 0) => Halt,
            _ => return None,
        })
    }

    pub fn encode(self) -> u32 {
        let (a, b, c) = match self {
            Number { to, value } => (to, value.to_be_bytes()[0], value.to_be_bytes()[1]),
            Tuple { to, tuple } => (to, 0, tuple),
            Block { to, block } => (to, 0, block),
            Copy { to, from } => (to, from, 0),
            Add { to, left, right } | Subtract { to, left, right } => (to, left, right),
            Fetch { to, pointer, cell } => (to, pointer, cell),
            Store { pointer, from, cell } => (pointer, from, cell),
            Push { count } | Pop { count } => (0, 0, count),
            Peek { to, slot } => (to, 0, slot),
            Poke { from, slot } => (0, from, slot),
            Strike { channel, from } => (channel, from, 0),
            Branch { test, target } => (test, target, 0),
            Raise { label, until } => (label, 0, until),
            Jump { target } => (target, 0, 0),
            Lower { block } => (0, 0, block),
            Halt => (0, 0, 0),
        };
        word(self.kind(), a, b, c)
    }

    pub fn kind(self) -> u8 {
        match self {
            Number { .. } => 0x20,
            Tuple { .. } => 0x21,
            Block { .. } => 0x22,
            Copy { .. } => 0x23,
            Add { .. } => 0x24,
            Fetch { .. } => 0x25,
            Store { .. } => 0x26,
            Push { .. } => 0x27,
            Pop { .. } => 0x28,
            Peek { .. } => 0x29,
            Poke { .. } => 0x2A,
            Strike { .. } => 0x2B,
            Branch { .. } => 0x2C,
            Raise { .. } => 0x2D,
            Subtract { .. } => 0x2E,
            Jump { .. } => 0x30,
            Lower { .. } => 0x31,
            Halt => 0x32,
        }
    }

    /// A block's last word, and no other, is of these.
    pub fn ends_block(self) -> bool {
        matches!(self, Jump { .. } | Lower { .. } | Halt)
    }
}

#[cfg(test)]
mod tests {
    use super::*;

    #[test]
    fn decoding_gives_back_the_word() {
        for kind in 0..=255u8 {
            for rest in [0, 1, 0x100, 0x10000, 0x10101, 0x20301, 0xFFFFFF] {
                let w = u32::from(kind) << 24 | rest;
                if let Some(instruction) = Instruction::decode(w) {
                    assert_eq!(instruction.encode(), w);
                }
                if let Some(of_type) = Type::decode(w) {
                    assert_eq!(of_type.encode(), w);
                }
            }
        }
    }

    #[test]
    fn there_is_no_kind_2f() {
        assert_eq!(Instruction::decode(0x2F000000), None);
        for kind in INSTRUCTION_KINDS {
            assert_eq!(Instruction::decode(word(kind, 0, 0, 0)).map(Instruction::kind), Some(kind));
        }
    }
}
