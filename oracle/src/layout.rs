//! The first pass: is the image a row of whole items, and which? It decodes as it goes, so that the later passes and the machine find
//! every item, type and instruction at an index.

use crate::checker::{Pass, Refusal};
use crate::words::{fields, Instruction, Sort, Type, BLOCK, CHANNEL, SHAPE, SIGNATURE, TUPLE};

pub const MAX_WORDS: usize = 2048;
pub const MAX_ALL_CELLS: usize = 256;
pub const MAX_DEPTH: usize = 32;
pub const REGISTERS: usize = 8;

/// A raised context: its label, and the block where it ends. The empty context is `None` of these.
#[derive(Clone, Copy, Debug, PartialEq, Eq)]
pub struct Raised {
    pub label: u8,
    pub until: u8,
}

pub type Context = Option<Raised>;

#[derive(Clone, Debug)]
pub struct Channel {
    pub place: usize,
    pub label: u8,
}

#[derive(Clone, Debug)]
pub struct Shape {
    pub place: usize,
    first_type: usize,
    count: usize,
}

#[derive(Clone, Debug)]
pub struct Signature {
    pub place: usize,
    pub context: Context,
    pub depth: usize,
    first_type: usize,
}

#[derive(Clone, Debug)]
pub struct Tuple {
    pub place: usize,
    pub shape: u8,
    /// Where its cells begin among the cells of all tuples.
    pub first_cell: usize,
    pub count: usize,
}

#[derive(Clone, Debug)]
pub struct Block {
    pub place: usize,
    pub signature: u8,
    /// Where its words begin among the instructions of all blocks.
    pub first_instruction: usize,
    pub count: usize,
}

/// The items of an image, and the words that follow heads, each sort in one row.
#[derive(Clone, Debug, Default)]
pub struct Items {
    pub channels: Vec<Channel>,
    pub shapes: Vec<Shape>,
    pub signatures: Vec<Signature>,
    pub tuples: Vec<Tuple>,
    pub blocks: Vec<Block>,
    types: Vec<Type>,
    /// The plain words of all tuples, in order: the cells as the image has them.
    pub cells: Vec<u32>,
    pub instructions: Vec<Instruction>,
}

impl Items {
    pub fn shape_types(&self, shape: &Shape) -> &[Type] {
        &self.types[shape.first_type..shape.first_type + shape.count]
    }

    pub fn register_types(&self, signature: &Signature) -> &[Type] {
        &self.types[signature.first_type..signature.first_type + REGISTERS]
    }

    /// The slots' types, the top slot first.
    pub fn slot_types(&self, signature: &Signature) -> &[Type] {
        let first = signature.first_type + REGISTERS;
        &self.types[first..first + signature.depth]
    }

    pub fn tuple_cells(&self, tuple: &Tuple) -> &[u32] {
        &self.cells[tuple.first_cell..tuple.first_cell + tuple.count]
    }

    pub fn block_instructions(&self, block: &Block) -> &[Instruction] {
        &self.instructions[block.first_instruction..block.first_instruction + block.count]
    }
}

fn refuse<T>(number: u8, place: usize) -> Result<T, Refusal> {
    Err(Refusal { number, place, pass: Pass::Layout })
}

/// Decodes a well laid out image; else answers the first fault.
pub fn lay_out(words: &[u32]) -> Result<Items, Refusal> {
    if words.len() > MAX_WORDS {
        return refuse(1, 0);
    }
    let mut items = Items { instructions: Vec::with_capacity(words.len()), ..Items::default() };
    let mut section = CHANNEL;
    let mut place = 0;
    while place < words.len() {
        let kind = fields(words[place]).0;
        if kind < section || kind > BLOCK {
            return refuse(2, place);
        }
        section = kind;
        place = match kind {
            CHANNEL => items.channel(words, place)?,
            SHAPE => items.shape(words, place)?,
            SIGNATURE => items.signature(words, place)?,
            TUPLE => items.tuple(words, place)?,
            _ => items.block(words, place)?,
        };
    }
    if items.blocks.is_empty() {
        return refuse(3, words.len());
    }
    Ok(items)
}

/// Each of these takes the place of a head, and gives the place behind the item. In each the rule on fields comes before limits, since
/// at one word the lowest number answers.
impl Items {
    fn channel(&mut self, words: &[u32], place: usize) -> Result<usize, Refusal> {
        let (_, a, b, label) = fields(words[place]);
        if a != 0 || b != 0 {
            return refuse(2, place);
        }
        if self.channels.len() == 16 {
            return refuse(3, place);
        }
        self.channels.push(Channel { place, label });
        Ok(place + 1)
    }

    fn shape(&mut self, words: &[u32], place: usize) -> Result<usize, Refusal> {
        let (_, a, b, c) = fields(words[place]);
        let count = usize::from(c);
        if a != 0 || b != 0 {
            return refuse(2, place);
        }
        if self.shapes.len() == 32 || !(1..=16).contains(&count) {
            return refuse(3, place);
        }
        let first_type = self.types.len();
        self.read_types(words, place + 1, count, false)?;
        self.shapes.push(Shape { place, first_type, count });
        Ok(place + 1 + count)
    }

    fn signature(&mut self, words: &[u32], place: usize) -> Result<usize, Refusal> {
        let (_, a, b, c) = fields(words[place]);
        let depth = usize::from(c & 0x7F);
        let context = if c & 0x80 != 0 { Some(Raised { label: a, until: b }) } else { None };
        // An empty context names neither a nor b.
        if context.is_none() && (a != 0 || b != 0) {
            return refuse(2, place);
        }
        if self.signatures.len() == 64 || depth > MAX_DEPTH {
            return refuse(3, place);
        }
        let first_type = self.types.len();
        self.read_types(words, place + 1, REGISTERS + depth, true)?;
        self.signatures.push(Signature { place, context, depth, first_type });
        Ok(place + 1 + REGISTERS + depth)
    }

    fn tuple(&mut self, words: &[u32], place: usize) -> Result<usize, Refusal> {
        let (_, a, b, shape) = fields(words[place]);
        let count = usize::from(b);
        if a != 0 {
            return refuse(2, place);
        }
        if self.tuples.len() == 64 || !(1..=16).contains(&count) || self.cells.len() + count > MAX_ALL_CELLS {
            return refuse(3, place);
        }
        let end = place + 1 + count;
        if end > words.len() {
            return refuse(2, words.len());
        }
        let first_cell = self.cells.len();
        self.cells.extend_from_slice(&words[place + 1..end]);
        self.tuples.push(Tuple { place, shape, first_cell, count });
        Ok(end)
    }

    fn block(&mut self, words: &[u32], place: usize) -> Result<usize, Refusal> {
        let (_, a, signature, c) = fields(words[place]);
        let count = usize::from(c);
        if a != 0 {
            return refuse(2, place);
        }
        if self.blocks.len() == 128 || !(1..=64).contains(&count) {
            return refuse(3, place);
        }
        let first_instruction = self.instructions.len();
        let end = place + 1 + count;
        for at in place + 1..end {
            let Some(&word) = words.get(at) else {
                return refuse(2, words.len());
            };
            match Instruction::decode(word) {
                Some(instruction) if instruction.ends_block() == (at + 1 == end) => self.instructions.push(instruction),
                _ => return refuse(2, at),
            }
        }
        self.blocks.push(Block { place, signature, first_instruction, count });
        Ok(end)
    }

    fn read_types(&mut self, words: &[u32], first: usize, count: usize, nonsense_too: bool) -> Result<(), Refusal> {
        for at in first..first + count {
            let Some(&word) = words.get(at) else {
                return refuse(2, words.len());
            };
            match Type::decode(word) {
                Some(read) if nonsense_too || read.sort != Sort::Nonsense => self.types.push(read),
                _ => return refuse(2, at),
            }
        }
        Ok(())
    }
}
