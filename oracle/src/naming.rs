//! The second pass: what a word names by its number is there, labels are labels, tuples are what their shapes say, and a run can start.

use crate::checker::{Pass, Refusal};
use crate::kinds::Kind;
use crate::layout::{Items, Raised, REGISTERS};
use crate::words::{Instruction, Sort, Type};

/// The lowest number that a word breaks, if any.
type Fault = Option<u8>;

/// What was asked of a word: is all that it names there, and is each code a label? 4 comes before 5.
fn names(there: bool, label: bool) -> Fault {
    match (there, label) {
        (false, _) => Some(4),
        (true, false) => Some(5),
        (true, true) => None,
    }
}

pub fn check_names(kind: &Kind, items: &Items) -> Result<(), Refusal> {
    let names = Names { kind, items };
    names.channels()?;
    names.shapes()?;
    names.signatures()?;
    names.tuples()?;
    names.blocks()
}

struct Names<'a> {
    kind: &'a Kind,
    items: &'a Items,
}

fn at(place: usize, fault: Fault) -> Result<(), Refusal> {
    match fault {
        Some(number) => Err(Refusal { number, place, pass: Pass::Naming }),
        None => Ok(()),
    }
}

impl Names<'_> {
    fn channels(&self) -> Result<(), Refusal> {
        for channel in &self.items.channels {
            at(channel.place, names(true, self.kind.is_label(channel.label)))?;
        }
        Ok(())
    }

    fn shapes(&self) -> Result<(), Refusal> {
        for shape in &self.items.shapes {
            self.types(shape.place + 1, self.items.shape_types(shape))?;
        }
        Ok(())
    }

    fn signatures(&self) -> Result<(), Refusal> {
        for signature in &self.items.signatures {
            if let Some(Raised { label, until }) = signature.context {
                at(signature.place, names(self.has_block(until), self.kind.is_label(label)))?;
            }
            self.types(signature.place + 1, self.items.register_types(signature))?;
            self.types(signature.place + 1 + REGISTERS, self.items.slot_types(signature))?;
        }
        Ok(())
    }

    fn types(&self, first: usize, types: &[Type]) -> Result<(), Refusal> {
        for (index, of_type) in types.iter().enumerate() {
            let fault = match of_type.sort {
                Sort::Nonsense => None,
                Sort::Integer => names(true, self.kind.is_label(of_type.label)),
                Sort::Pointer(shape) => names(self.has_shape(shape), self.kind.is_label(of_type.label)),
                Sort::Code(signature) => names(self.has_signature(signature), self.kind.is_label(of_type.label)),
            };
            at(first + index, fault)?;
        }
        Ok(())
    }

    fn tuples(&self) -> Result<(), Refusal> {
        for tuple in &self.items.tuples {
            let Some(shape) = self.items.shapes.get(usize::from(tuple.shape)) else {
                return at(tuple.place, Some(4));
            };
            let types = self.items.shape_types(shape);
            if types.len() != tuple.count {
                return at(tuple.place, Some(7));
            }
            for (index, &word) in self.items.tuple_cells(tuple).iter().enumerate() {
                at(tuple.place + 1 + index, self.plain_word(types[index].sort, word))?;
            }
        }
        Ok(())
    }

    /// The words of heads count as they stand here, though a head further on may itself be faulty.
    fn plain_word(&self, sort: Sort, word: u32) -> Fault {
        let index = word as usize;
        let (there, right) = match sort {
            Sort::Nonsense => (true, false),
            Sort::Integer => (true, word == 0),
            Sort::Pointer(shape) => match self.items.tuples.get(index) {
                Some(tuple) => (true, tuple.shape == shape),
                None => (false, false),
            },
            Sort::Code(signature) => match self.items.blocks.get(index) {
                Some(block) => (true, block.signature == signature),
                None => (false, false),
            },
        };
        match (there, right) {
            (false, _) => Some(4),
            (true, false) => Some(7),
            (true, true) => None,
        }
    }

    fn blocks(&self) -> Result<(), Refusal> {
        for (number, block) in self.items.blocks.iter().enumerate() {
            if !self.has_signature(block.signature) {
                return at(block.place, Some(4));
            }
            if number == 0 && !self.can_start(block.signature) {
                return at(block.place, Some(6));
            }
            for (index, &instruction) in self.items.block_instructions(block).iter().enumerate() {
                at(block.place + 1 + index, self.instruction(instruction))?;
            }
        }
        Ok(())
    }

    /// A run starts with an empty context, no slots, and nothing in registers that points anywhere.
    fn can_start(&self, signature: u8) -> bool {
        let signature = &self.items.signatures[usize::from(signature)];
        let plain = |of_type: &Type| matches!(of_type.sort, Sort::Integer | Sort::Nonsense);
        signature.context.is_none() && signature.depth == 0 && self.items.register_types(signature).iter().all(plain)
    }

    fn instruction(&self, instruction: Instruction) -> Fault {
        use Instruction::*;
        let register = |number: u8| usize::from(number) < REGISTERS;
        match instruction {
            Number { to, .. } => names(register(to), true),
            Tuple { to, tuple } => names(register(to) && usize::from(tuple) < self.items.tuples.len(), true),
            Block { to, block } => names(register(to) && self.has_block(block), true),
            Copy { to, from } => names(register(to) && register(from), true),
            Add { to, left, right } | Subtract { to, left, right } => {
                names(register(to) && register(left) && register(right), true)
            }
            Fetch { to, pointer, .. } => names(register(to) && register(pointer), true),
            Store { pointer, from, .. } => names(register(pointer) && register(from), true),
            Push { .. } | Pop { .. } | Halt => None,
            Peek { to, .. } => names(register(to), true),
            Poke { from, .. } => names(register(from), true),
            Strike { channel, from } => names(usize::from(channel) < self.items.channels.len() && register(from), true),
            Branch { test, target } => names(register(test) && register(target), true),
            Raise { label, until } => names(self.has_block(until), self.kind.is_label(label)),
            Jump { target } => names(register(target), true),
            Lower { block } => names(self.has_block(block), true),
        }
    }

    fn has_shape(&self, number: u8) -> bool {
        usize::from(number) < self.items.shapes.len()
    }

    fn has_signature(&self, number: u8) -> bool {
        usize::from(number) < self.items.signatures.len()
    }

    fn has_block(&self, number: u8) -> bool {
        usize::from(number) < self.items.blocks.len()
    }
}
