//! The third pass: types and contexts at each word of each block (`docs/rules.md`).

use crate::checker::{Pass, Refusal, Rules};
use crate::kinds::Kind;
use crate::layout::{Block, Context, Items, Raised, Signature, MAX_DEPTH, REGISTERS};
use crate::words::{Instruction, Sort, Type, NONSENSE};

/// What is known before a word. The stack's top slot is its last.
struct Known {
    context: Context,
    registers: [Type; REGISTERS],
    stack: Vec<Type>,
}

impl Known {
    /// t of the pages.
    fn label(&self) -> u8 {
        self.context.map_or(0, |raised| raised.label)
    }

    fn register(&self, number: u8) -> Type {
        self.registers[usize::from(number)]
    }

    fn set(&mut self, number: u8, of_type: Type) {
        self.registers[usize::from(number)] = of_type;
    }

    /// The index in `stack` of a slot, the top one being 0.
    fn slot(&self, number: u8) -> Option<usize> {
        self.stack.len().checked_sub(1 + usize::from(number))
    }
}

/// The faults of one word. All that can be asked is asked; the lowest number answers.
struct Faults(Option<u8>);

impl Faults {
    fn ask(&mut self, kept: bool, number: u8) {
        if !kept {
            self.0 = Some(self.0.map_or(number, |lowest| lowest.min(number)));
        }
    }
}

pub fn check_flow(kind: &Kind, items: &Items, rules: &Rules) -> Result<(), Refusal> {
    let mut flow = Flow { kind, items, rules, known: Known { context: None, registers: [NONSENSE; REGISTERS], stack: Vec::with_capacity(MAX_DEPTH) } };
    for block in &items.blocks {
        flow.block(block)?;
    }
    Ok(())
}

struct Flow<'a> {
    kind: &'a Kind,
    items: &'a Items,
    rules: &'a Rules,
    known: Known,
}

impl<'a> Flow<'a> {
    fn block(&mut self, block: &Block) -> Result<(), Refusal> {
        self.begin(self.signature(block.signature));
        for (index, &instruction) in self.items.block_instructions(block).iter().enumerate() {
            let mut faults = Faults(None);
            self.instruction(instruction, &mut faults);
            if let Some(number) = faults.0 {
                return Err(Refusal { number, place: block.place + 1 + index, pass: Pass::Flow });
            }
        }
        Ok(())
    }

    fn begin(&mut self, signature: &Signature) {
        self.known.context = signature.context;
        self.known.registers.copy_from_slice(self.items.register_types(signature));
        self.known.stack.clear();
        self.known.stack.extend(self.items.slot_types(signature).iter().rev());
    }

    fn signature(&self, number: u8) -> &'a Signature {
        &self.items.signatures[usize::from(number)]
    }

    fn signature_of_block(&self, number: u8) -> &'a Signature {
        self.signature(self.items.blocks[usize::from(number)].signature)
    }

    fn under(&self, low: u8, high: u8) -> bool {
        self.kind.at_or_below(low, high)
    }

    /// A type as it is written into a register: t and the label of what led there join it. Nonsense stays nonsense.
    fn written(&self, of_type: Type, other: u8) -> Type {
        let t = if self.rules.context_joins_registers { self.known.label() } else { 0 };
        Type::new(of_type.sort, self.kind.join(t, self.kind.join(of_type.label, other)))
    }

    /// The type of cell `cell` of what a pointer points to, if it is a pointer and there is such a cell.
    fn cell(&self, pointer: Type, cell: u8) -> Option<Type> {
        match pointer.sort {
            Sort::Pointer(shape) => {
                let shape = &self.items.shapes[usize::from(shape)];
                self.items.shape_types(shape).get(usize::from(cell)).copied()
            }
            _ => None,
        }
    }

    fn instruction(&mut self, instruction: Instruction, faults: &mut Faults) {
        use Instruction::*;
        match instruction {
            Number { to, .. } => self.known.set(to, self.written(Type::integer(0), 0)),
            Tuple { to, tuple } => {
                let shape = self.items.tuples[usize::from(tuple)].shape;
                self.known.set(to, self.written(Type::pointer(shape, 0), 0));
            }
            Block { to, block } => {
                let signature = self.items.blocks[usize::from(block)].signature;
                self.known.set(to, self.written(Type::code(signature, 0), 0));
            }
            Copy { to, from } => self.known.set(to, self.written(self.known.register(from), 0)),
            Add { to, left, right } | Subtract { to, left, right } => self.sum(to, left, right, faults),
            Fetch { to, pointer, cell } => self.fetch(to, pointer, cell, faults),
            Store { pointer, from, cell } => self.store(pointer, from, cell, faults),
            Push { count } => {
                let depth = self.known.stack.len() + usize::from(count);
                faults.ask(depth <= MAX_DEPTH, 9);
                if depth <= MAX_DEPTH {
                    self.known.stack.resize(depth, NONSENSE);
                }
            }
            Pop { count } => match self.known.stack.len().checked_sub(usize::from(count)) {
                Some(depth) => self.known.stack.truncate(depth),
                None => faults.ask(false, 9),
            },
            Peek { to, slot } => match self.known.slot(slot) {
                Some(index) => self.known.set(to, self.written(self.known.stack[index], 0)),
                None => faults.ask(false, 9),
            },
            Poke { from, slot } => self.poke(from, slot, faults),
            Strike { channel, from } => self.strike(channel, from, faults),
            Branch { test, target } => self.branch(test, target, faults),
            Raise { label, until } => self.raise(label, until, faults),
            Jump { target } => self.jump(target, faults),
            Lower { block } => self.lower(block, faults),
            Halt => faults.ask(self.known.context.is_none() || !self.rules.halt_context, 11),
        }
    }

    fn sum(&mut self, to: u8, left: u8, right: u8, faults: &mut Faults) {
        let (left, right) = (self.known.register(left), self.known.register(right));
        faults.ask(left.sort == Sort::Integer && right.sort == Sort::Integer, 8);
        self.known.set(to, self.written(left, right.label));
    }

    fn fetch(&mut self, to: u8, pointer: u8, cell: u8, faults: &mut Faults) {
        let pointer = self.known.register(pointer);
        match self.cell(pointer, cell) {
            Some(of_type) => self.known.set(to, self.written(of_type, pointer.label)),
            None => faults.ask(false, 8),
        }
    }

    fn store(&mut self, pointer: u8, from: u8, cell: u8, faults: &mut Faults) {
        let (pointer, from) = (self.known.register(pointer), self.known.register(from));
        let Some(of_type) = self.cell(pointer, cell) else {
            return faults.ask(false, 8);
        };
        faults.ask(from.sort == of_type.sort, 8);
        let t = self.known.label();
        faults.ask(self.under(t, of_type.label), 10);
        faults.ask(self.under(from.label, of_type.label), 10);
        faults.ask(self.under(pointer.label, of_type.label) || !self.rules.store_pointer_label, 10);
    }

    fn poke(&mut self, from: u8, slot: u8, faults: &mut Faults) {
        let from = self.known.register(from);
        let t = if self.rules.context_joins_slots { self.known.label() } else { 0 };
        match self.known.slot(slot) {
            Some(index) => self.known.stack[index] = Type::new(from.sort, self.kind.join(t, from.label)),
            None => faults.ask(false, 9),
        }
    }

    fn strike(&mut self, channel: u8, from: u8, faults: &mut Faults) {
        let from = self.known.register(from);
        let label = self.items.channels[usize::from(channel)].label;
        faults.ask(from.sort == Sort::Integer, 8);
        faults.ask(self.under(self.kind.join(self.known.label(), from.label), label), 10);
    }

    fn branch(&mut self, test: u8, target: u8, faults: &mut Faults) {
        let (test, target) = (self.known.register(test), self.known.register(target));
        faults.ask(test.sort == Sort::Integer, 8);
        let Sort::Code(signature) = target.sort else {
            return faults.ask(false, 8);
        };
        let t = self.known.label();
        faults.ask(self.under(test.label, t) || !self.rules.branch_label, 10);
        faults.ask(self.under(target.label, t), 10);
        self.transfer(self.signature(signature), faults);
    }

    fn jump(&mut self, target: u8, faults: &mut Faults) {
        let target = self.known.register(target);
        let Sort::Code(signature) = target.sort else {
            return faults.ask(false, 8);
        };
        faults.ask(self.under(target.label, self.known.label()) || !self.rules.jump_label, 10);
        self.transfer(self.signature(signature), faults);
    }

    fn raise(&mut self, label: u8, until: u8, faults: &mut Faults) {
        faults.ask(self.under(self.known.label(), label), 10);
        let same = self.signature_of_block(until).context == self.known.context;
        faults.ask(same || !self.rules.raise_context, 11);
        self.known.context = Some(Raised { label, until });
    }

    fn lower(&mut self, block: u8, faults: &mut Faults) {
        faults.ask(self.known.context.is_some_and(|raised| raised.until == block), 11);
        self.fits(self.signature_of_block(block), faults);
    }

    fn transfer(&self, signature: &Signature, faults: &mut Faults) {
        faults.ask(self.same_context(signature.context, self.known.context), 11);
        self.fits(signature, faults);
    }

    fn same_context(&self, one: Context, other: Context) -> bool {
        match (one, other) {
            (None, None) => true,
            (Some(one), Some(other)) => {
                (one.label == other.label || !self.rules.transfer_label)
                    && (one.until == other.until || !self.rules.transfer_postdominator)
            }
            _ => false,
        }
    }

    fn fits(&self, signature: &Signature, faults: &mut Faults) {
        for (&wanted, &there) in self.items.register_types(signature).iter().zip(&self.known.registers) {
            self.fits_one(wanted, there, faults);
        }
        faults.ask(signature.depth == self.known.stack.len(), 12);
        if signature.depth == self.known.stack.len() {
            for (&wanted, &there) in self.items.slot_types(signature).iter().zip(self.known.stack.iter().rev()) {
                self.fits_one(wanted, there, faults);
            }
        }
    }

    fn fits_one(&self, wanted: Type, there: Type, faults: &mut Faults) {
        if wanted.sort == Sort::Nonsense {
            return;
        }
        if wanted.sort == there.sort {
            faults.ask(self.under(there.label, wanted.label), 10);
        } else {
            faults.ask(false, 12);
        }
    }
}
