//! Images that are accepted: types and contexts are followed while they are written.

use super::Random;
use std::cell::RefCell;
use crate::checker::check;
use crate::kinds::Kind;
use crate::layout::{Context, Raised, MAX_DEPTH, REGISTERS};
use crate::words::{word, Instruction, Sort, Type, BLOCK, CHANNEL, NONSENSE, SHAPE, SIGNATURE, TUPLE};
use Instruction::*;

/// How large an image is wanted.
#[derive(Clone, Copy, Debug, PartialEq, Eq)]
pub enum Size {
    Small,
    Large,
}

#[derive(Clone, Debug)]
struct DraftSignature {
    context: Context,
    registers: [Type; REGISTERS],
    /// The bottom slot first: the other way round than in the image.
    stack: Vec<Type>,
}

struct DraftTuple {
    shape: usize,
    words: Vec<u32>,
}

struct DraftBlock {
    signature: usize,
    words: Vec<Instruction>,
}

/// An image that is being written.
struct Draft<'a> {
    kind: &'a Kind,
    random: &'a mut Random,
    /// The few labels that the image uses, 0 among them.
    palette: Vec<u8>,
    channels: Vec<u8>,
    shapes: Vec<Vec<Type>>,
    signatures: Vec<DraftSignature>,
    tuples: Vec<DraftTuple>,
    blocks: Vec<DraftBlock>,
    /// Roughly how many instructions there may be.
    budget: usize,
    care: Care,
}

/// Whether all rules are kept while writing. Careless images break rules where programmes would break them: a label is let through now
/// and then, or what the context adds to labels is now and then forgotten.
enum Care {
    Full,
    LetsThrough(RefCell<Random>),
    ForgetsContext(RefCell<Random>),
}

impl Care {
    fn lets_through(&self) -> bool {
        match self {
            Care::LetsThrough(random) => random.borrow_mut().once_in(4),
            _ => false,
        }
    }

    fn forgets_context(&self) -> bool {
        match self {
            Care::ForgetsContext(random) => random.borrow_mut().once_in(3),
            _ => false,
        }
    }
}

/// Where the next instruction goes, and what is known there.
///
/// What a region or loop relies on afterwards is `kept`: those registers, and the lowest `kept_depth` slots, are not written meanwhile.
#[derive(Clone)]
struct Pen {
    block: usize,
    context: Context,
    registers: [Type; REGISTERS],
    stack: Vec<Type>,
    kept: [bool; REGISTERS],
    kept_depth: usize,
}

impl Pen {
    fn label(&self) -> u8 {
        self.context.map_or(0, |raised| raised.label)
    }

    fn slot(&self, number: u8) -> usize {
        self.stack.len() - 1 - usize::from(number)
    }
}

/// The register that is never kept and that every signature leaves as nonsense: code for branches and jumps goes through it.
const LINK: u8 = 7;
/// A second register that is never kept.
const SCRATCH: u8 = 6;

/// An image of `size` that is meant to be accepted by `kind`: types are followed while it is written. `None` where it outgrew a limit.
pub fn well_typed(kind: &Kind, random: &mut Random, size: Size) -> Option<Vec<u32>> {
    write(Draft::begin(kind, random, size), size)
}

/// A small image that was written without full care: mostly one that is refused for a label, else for a context or a sort.
pub fn careless(kind: &Kind, random: &mut Random) -> Vec<u32> {
    loop {
        let own = RefCell::new(random.fork());
        let care = if random.once_in(2) { Care::LetsThrough(own) } else { Care::ForgetsContext(own) };
        let mut draft = Draft::begin(kind, random, Size::Small);
        draft.care = care;
        if let Some(image) = write(draft, Size::Small) {
            return image;
        }
    }
}

fn write(mut draft: Draft, size: Size) -> Option<Vec<u32>> {
    let mut pen = draft.start();
    let length = match size {
        Size::Small => draft.random.between(2, 9),
        Size::Large => 60,
    };
    draft.body(&mut pen, length, 0)?;
    draft.finish(&mut pen)?;
    if draft.random.once_in(4) {
        draft.dead_block();
    }
    draft.encode()
}

impl<'a> Draft<'a> {
    fn begin(kind: &'a Kind, random: &'a mut Random, size: Size) -> Draft<'a> {
        let budget = match size {
            Size::Small => 150,
            Size::Large => 900,
        };
        let mut draft = Draft {
            kind,
            random,
            palette: vec![0],
            channels: Vec::new(),
            shapes: Vec::new(),
            signatures: Vec::new(),
            tuples: Vec::new(),
            blocks: Vec::new(),
            budget,
            care: Care::Full,
        };
        draft.choose_palette();
        draft.choose_channels();
        draft.choose_shapes();
        draft
    }

    fn choose_palette(&mut self) {
        let count = usize::from(self.kind.count());
        for _ in 0..self.random.between(1, 3) {
            let label = self.random.below(count) as u8;
            self.palette.push(label);
        }
        let joined = self.palette.iter().fold(0, |all, &label| self.kind.join(all, label));
        self.palette.push(joined);
    }

    fn choose_channels(&mut self) {
        let count = if self.random.once_in(20) { self.random.between(0, 16) } else { self.random.between(2, 4) };
        for index in 0..count {
            let label = match index {
                0 if !self.random.once_in(8) => 0,
                1 => self.palette[self.palette.len() - 1],
                _ => self.any_label(),
            };
            self.channels.push(label);
        }
    }

    /// Shapes that name each other freely, and at least one tuple of each, so that a pointer to any shape can be made.
    fn choose_shapes(&mut self) {
        let count = self.random.between(1, 4);
        for _ in 0..count {
            let cells = if self.random.once_in(25) { 16 } else { self.random.between(1, 4) };
            let mut types = Vec::new();
            for _ in 0..cells {
                let label = self.any_label();
                types.push(match self.random.below(8) {
                    0 | 1 => Type::pointer(self.random.below(count) as u8, label),
                    2 if self.random.once_in(3) => Type::code(0, label),
                    _ => Type::integer(label),
                });
            }
            self.shapes.push(types);
        }
        for shape in 0..count {
            for _ in 0..self.random.between(1, 2) {
                self.tuples.push(DraftTuple { shape, words: Vec::new() });
            }
        }
        for tuple in 0..self.tuples.len() {
            let types = self.shapes[self.tuples[tuple].shape].clone();
            for of_type in types {
                let plain = match of_type.sort {
                    Sort::Pointer(shape) => self.any_tuple_of(shape) as u32,
                    // Code of signature 0, which is block 0's.
                    _ => 0,
                };
                self.tuples[tuple].words.push(plain);
            }
        }
    }

    /// Block 0, with a signature that a run can start in.
    fn start(&mut self) -> Pen {
        let mut registers = [NONSENSE; REGISTERS];
        for register in registers.iter_mut().take(usize::from(SCRATCH)) {
            if self.random.once_in(4) {
                *register = Type::integer(self.any_label());
            }
        }
        self.signatures.push(DraftSignature { context: None, registers, stack: Vec::new() });
        self.open(0)
    }

    // --- choices ---

    fn any_label(&mut self) -> u8 {
        let choice = self.random.below(self.palette.len() + 1);
        self.palette.get(choice).copied().unwrap_or(0)
    }

    fn under(&self, low: u8, high: u8) -> bool {
        self.kind.at_or_below(low, high) || self.care.lets_through()
    }

    fn any_tuple_of(&mut self, shape: u8) -> usize {
        let fitting: Vec<usize> = (0..self.tuples.len()).filter(|&t| self.tuples[t].shape == usize::from(shape)).collect();
        self.random.pick(&fitting).unwrap_or(0)
    }

    fn any_block_of(&mut self, signature: u8) -> usize {
        let fitting: Vec<usize> =
            (0..self.blocks.len()).filter(|&b| self.blocks[b].signature == usize::from(signature)).collect();
        self.random.pick(&fitting).unwrap_or(0)
    }

    /// A register that may be written.
    fn writable(&mut self, pen: &Pen) -> u8 {
        let free: Vec<u8> = (0..REGISTERS as u8).filter(|&r| !pen.kept[usize::from(r)]).collect();
        self.random.pick(&free).unwrap_or(LINK)
    }

    fn registers_where(&mut self, pen: &Pen, test: impl Fn(&Draft, Type) -> bool) -> Option<u8> {
        let fitting: Vec<u8> = (0..REGISTERS as u8).filter(|&r| test(self, pen.registers[usize::from(r)])).collect();
        self.random.pick(&fitting)
    }

    /// An integer cell whose label is under `label`: a tuple and a cell number.
    fn integer_cell_under(&mut self, label: u8) -> Option<(usize, u8)> {
        let mut fitting = Vec::new();
        for (number, tuple) in self.tuples.iter().enumerate() {
            for (cell, of_type) in self.shapes[tuple.shape].iter().enumerate() {
                if of_type.sort == Sort::Integer && self.under(of_type.label, label) {
                    fitting.push((number, cell as u8));
                }
            }
        }
        self.random.pick(&fitting)
    }

    fn has_room(&self) -> bool {
        let cells: usize = self.tuples.iter().map(|tuple| tuple.words.len()).sum();
        self.written() < self.budget
            && self.shapes.len() < 28
            && self.tuples.len() < 56
            && cells < 220
            && self.signatures.len() < 44
            && self.blocks.len() < 100
    }

    fn written(&self) -> usize {
        self.blocks.iter().map(|block| block.words.len()).sum()
    }

    // --- writing ---

    /// A new block of a signature, and the pen at its beginning, which keeps nothing yet.
    fn open(&mut self, signature: usize) -> Pen {
        self.blocks.push(DraftBlock { signature, words: Vec::new() });
        self.pen_at(self.blocks.len() - 1)
    }

    fn open_keeping(&mut self, signature: usize, like: &Pen) -> Pen {
        let mut pen = self.open(signature);
        pen.kept = like.kept;
        pen.kept_depth = like.kept_depth;
        pen
    }

    fn pen_at(&self, block: usize) -> Pen {
        let signature = &self.signatures[self.blocks[block].signature];
        Pen {
            block,
            context: signature.context,
            registers: signature.registers,
            stack: signature.stack.clone(),
            kept: [false; REGISTERS],
            kept_depth: 0,
        }
    }

    /// Writes one word and follows what it leaves. The caller has seen to it that the word is allowed.
    fn put(&mut self, pen: &mut Pen, instruction: Instruction) {
        self.blocks[pen.block].words.push(instruction);
        let t = if self.care.forgets_context() { 0 } else { pen.label() };
        let of = |register: u8| pen.registers[usize::from(register)];
        let written = |of_type: Type, other: u8| {
            Type::new(of_type.sort, self.kind.join(self.kind.join(t, other), of_type.label))
        };
        match instruction {
            Number { to, .. } => pen.registers[usize::from(to)] = Type::integer(t),
            Tuple { to, tuple } => {
                pen.registers[usize::from(to)] = Type::pointer(self.tuples[usize::from(tuple)].shape as u8, t);
            }
            Block { to, block } => {
                pen.registers[usize::from(to)] = Type::code(self.blocks[usize::from(block)].signature as u8, t);
            }
            Copy { to, from } => pen.registers[usize::from(to)] = written(of(from), 0),
            Add { to, left, right } | Subtract { to, left, right } => {
                pen.registers[usize::from(to)] = written(of(left), of(right).label);
            }
            Fetch { to, pointer, cell } => {
                if let Sort::Pointer(shape) = of(pointer).sort {
                    let of_type = self.shapes[usize::from(shape)][usize::from(cell)];
                    pen.registers[usize::from(to)] = written(of_type, of(pointer).label);
                }
            }
            Push { count } => pen.stack.resize(pen.stack.len() + usize::from(count), NONSENSE),
            Pop { count } => pen.stack.truncate(pen.stack.len() - usize::from(count)),
            Peek { to, slot } => pen.registers[usize::from(to)] = written(pen.stack[pen.slot(slot)], 0),
            Poke { from, slot } => {
                let new = written(of(from), 0);
                let index = pen.slot(slot);
                pen.stack[index] = new;
            }
            Raise { label, until } => pen.context = Some(Raised { label, until }),
            Store { .. } | Strike { .. } | Branch { .. } | Jump { .. } | Lower { .. } | Halt => {}
        }
    }

    /// Makes a value of a sort in a register; its label is the context's.
    fn make(&mut self, pen: &mut Pen, to: u8, sort: Sort) {
        let instruction = match sort {
            Sort::Nonsense | Sort::Integer => {
                let value = if self.random.once_in(6) { self.random.word() as u16 } else { self.random.below(4) as u16 };
                Number { to, value }
            }
            Sort::Pointer(shape) => Tuple { to, tuple: self.any_tuple_of(shape) as u8 },
            Sort::Code(signature) => Block { to, block: self.any_block_of(signature) as u8 },
        };
        self.put(pen, instruction);
    }

    /// A sequence of `length` random constructs.
    fn body(&mut self, pen: &mut Pen, length: usize, nesting: usize) -> Option<()> {
        for _ in 0..length {
            self.roll_over(pen)?;
            let construct = if nesting < 3 && self.has_room() { self.random.below(16) } else { 99 };
            match construct {
                0..=2 => self.region(pen, nesting)?,
                3 | 4 => self.branch_and_join(pen, nesting)?,
                5 => self.branch_and_end(pen, nesting)?,
                6 => self.counted_loop(pen, nesting)?,
                7 if self.random.once_in(2) => self.dispatch(pen, nesting)?,
                8 if self.random.once_in(4) => self.wild_branch(pen),
                _ => {
                    for _ in 0..self.random.between(1, 4) {
                        self.step(pen);
                    }
                }
            }
        }
        self.roll_over(pen)
    }

    /// Goes on in a new block before the present one gets too long.
    fn roll_over(&mut self, pen: &mut Pen) -> Option<()> {
        if self.blocks[pen.block].words.len() > 34 {
            let signature = self.signature_from(pen, false);
            let next = self.open_keeping(signature, pen);
            self.jump(pen, next.block)?;
            *pen = next;
        }
        Some(())
    }

    /// A signature that fits what is known, or with `makeable` one that any pen in the same context can be made to fit.
    fn signature_from(&mut self, pen: &Pen, makeable: bool) -> usize {
        if self.random.once_in(3) {
            let fitting: Vec<usize> =
                (0..self.signatures.len()).filter(|&s| self.may_reuse(&self.signatures[s], pen, makeable)).collect();
            if let Some(signature) = self.random.pick(&fitting) {
                return signature;
            }
        }
        let mut registers = [NONSENSE; REGISTERS];
        for number in 0..usize::from(LINK) {
            registers[number] = self.loosened(pen.registers[number], pen, pen.kept[number], makeable);
        }
        let mut stack = Vec::new();
        for index in 0..pen.stack.len() {
            // Few typed slots, so that they can be made again in few words.
            let kept = index < pen.kept_depth;
            let of_type = if kept || pen.stack.len() <= 6 { pen.stack[index] } else { NONSENSE };
            stack.push(self.loosened(of_type, pen, kept, makeable));
        }
        self.signatures.push(DraftSignature { context: pen.context, registers, stack });
        self.signatures.len() - 1
    }

    /// A type that the given one fits.
    fn loosened(&mut self, of_type: Type, pen: &Pen, kept: bool, makeable: bool) -> Type {
        if kept {
            return of_type;
        }
        let mut label = of_type.label;
        if makeable {
            label = self.kind.join(label, pen.label());
        }
        match self.random.below(4) {
            0 => NONSENSE,
            1 => {
                let more = self.any_label();
                Type::new(of_type.sort, self.kind.join(label, more))
            }
            _ => Type::new(of_type.sort, label),
        }
    }

    fn may_reuse(&self, signature: &DraftSignature, pen: &Pen, makeable: bool) -> bool {
        let free = |wanted: Type| !makeable || wanted.sort == Sort::Nonsense || self.under(pen.label(), wanted.label);
        let one = |wanted: Type, there: Type, kept: bool| {
            if kept {
                wanted == there
            } else {
                self.fits_one(wanted, there) && free(wanted)
            }
        };
        signature.context == pen.context
            && signature.stack.len() == pen.stack.len()
            && signature.registers[usize::from(LINK)] == NONSENSE
            && (0..REGISTERS).all(|r| one(signature.registers[r], pen.registers[r], pen.kept[r]))
            && (0..pen.stack.len()).all(|s| one(signature.stack[s], pen.stack[s], s < pen.kept_depth))
    }

    fn fits_one(&self, wanted: Type, there: Type) -> bool {
        wanted.sort == Sort::Nonsense || wanted.sort == there.sort && self.under(there.label, wanted.label)
    }

    /// Makes what is known fit a signature. Only what is not kept is written.
    fn prepare(&mut self, pen: &mut Pen, signature: usize) -> Option<()> {
        let wanted = self.signatures[signature].clone();
        let (depth, new_depth) = (pen.stack.len(), wanted.stack.len());
        if depth > new_depth {
            self.put(pen, Pop { count: (depth - new_depth) as u8 });
        } else if depth < new_depth {
            self.put(pen, Push { count: (new_depth - depth) as u8 });
        }
        for index in 0..new_depth {
            if !self.fits_one(wanted.stack[index], pen.stack[index]) {
                self.make(pen, LINK, wanted.stack[index].sort);
                self.put(pen, Poke { from: LINK, slot: (new_depth - 1 - index) as u8 });
            }
        }
        for register in 0..REGISTERS {
            if !self.fits_one(wanted.registers[register], pen.registers[register]) {
                if pen.kept[register] {
                    return None;
                }
                self.make(pen, register as u8, wanted.registers[register].sort);
            }
        }
        Some(())
    }

    /// Code for a block in the link register, at a label under the context's: by its number, or through a cell that holds it or
    /// another block of its signature.
    fn link(&mut self, pen: &mut Pen, block: usize) {
        let signature = self.blocks[block].signature as u8;
        let sort = Sort::Code(signature);
        let t = pen.label();
        if self.random.once_in(3) {
            let mut cells = Vec::new();
            for (number, tuple) in self.tuples.iter().enumerate() {
                for (cell, of_type) in self.shapes[tuple.shape].iter().enumerate() {
                    if of_type.sort == sort && self.under(of_type.label, t) {
                        cells.push((number, cell));
                    }
                }
            }
            let cell = match self.random.pick(&cells) {
                Some(cell) => Some(cell),
                None if self.has_room() => Some(self.code_cell(pen, block)),
                None => None,
            };
            if let Some((tuple, cell)) = cell {
                self.put(pen, Tuple { to: LINK, tuple: tuple as u8 });
                self.put(pen, Fetch { to: LINK, pointer: LINK, cell: cell as u8 });
                return;
            }
        }
        self.put(pen, Block { to: LINK, block: block as u8 });
    }

    /// A new shape and tuple with a cell that holds a block, at a label under the context's.
    fn code_cell(&mut self, pen: &Pen, block: usize) -> (usize, usize) {
        let label = if self.random.once_in(2) { 0 } else { pen.label() };
        let mut types = vec![Type::code(self.blocks[block].signature as u8, label)];
        let mut words = vec![block as u32];
        if self.random.once_in(3) {
            types.insert(0, Type::integer(self.any_label()));
            words.insert(0, 0);
        }
        self.shapes.push(types);
        self.tuples.push(DraftTuple { shape: self.shapes.len() - 1, words });
        (self.tuples.len() - 1, self.shapes[self.shapes.len() - 1].len() - 1)
    }

    fn jump(&mut self, pen: &mut Pen, block: usize) -> Option<()> {
        self.prepare(pen, self.blocks[block].signature)?;
        self.link(pen, block);
        self.put(pen, Jump { target: LINK });
        Some(())
    }

    /// Ends the pen's block for good: a halt, or a lower to where the context ends.
    fn finish(&mut self, pen: &mut Pen) -> Option<()> {
        match pen.context {
            None => self.put(pen, Halt),
            Some(raised) => {
                self.prepare(pen, self.blocks[usize::from(raised.until)].signature)?;
                self.put(pen, Lower { block: raised.until });
            }
        }
        Some(())
    }

    /// An integer in a register, under the context's label: mostly one that hangs on the job.
    fn test(&mut self, pen: &mut Pen) -> u8 {
        let t = pen.label();
        if self.random.once_in(3) {
            let there = self.registers_where(pen, |d, ty| ty.sort == Sort::Integer && d.under(ty.label, t));
            // The link register is about to get the code.
            if let Some(register) = there.filter(|&register| register != LINK) {
                return register;
            }
        }
        match self.integer_cell_under(t) {
            Some((tuple, cell)) => {
                self.put(pen, Tuple { to: LINK, tuple: tuple as u8 });
                self.put(pen, Fetch { to: SCRATCH, pointer: LINK, cell });
            }
            None => self.make(pen, SCRATCH, Sort::Integer),
        }
        SCRATCH
    }

    // --- constructs ---

    /// A branch to a new block, which is given back. The present block goes on.
    fn branch_to_new(&mut self, pen: &mut Pen, makeable: bool) -> Pen {
        let test = self.test(pen);
        let signature = self.signature_from(pen, makeable);
        let side = self.open_keeping(signature, pen);
        self.link(pen, side.block);
        self.put(pen, Branch { test, target: LINK });
        side
    }

    fn branch_and_end(&mut self, pen: &mut Pen, nesting: usize) -> Option<()> {
        let mut side = self.branch_to_new(pen, false);
        let length = self.random.below(3);
        self.body(&mut side, length, nesting + 1)?;
        self.finish(&mut side)
    }

    fn branch_and_join(&mut self, pen: &mut Pen, nesting: usize) -> Option<()> {
        let mut side = self.branch_to_new(pen, false);
        let (here, there) = (self.random.below(3), self.random.below(3));
        self.body(pen, here, nesting + 1)?;
        self.body(&mut side, there, nesting + 1)?;
        let signature = self.signature_from(pen, true);
        let joined = self.open_keeping(signature, pen);
        self.jump(pen, joined.block)?;
        self.jump(&mut side, joined.block)?;
        *pen = joined;
        Some(())
    }

    /// A raised region: a raise, words and branches in it, and lowers to the block where it ends.
    fn region(&mut self, pen: &mut Pen, nesting: usize) -> Option<()> {
        let more = self.any_label();
        let label = self.kind.join(pen.label(), more);
        let mut inner = pen.clone();
        for register in 0..usize::from(SCRATCH) {
            inner.kept[register] |= pen.registers[register].sort != Sort::Nonsense && self.random.once_in(3);
        }
        inner.kept_depth = self.random.between(pen.kept_depth, pen.stack.len().clamp(pen.kept_depth, 5.max(pen.kept_depth)));
        let end = self.region_end(&inner, label);
        let mut end = self.open_keeping(end, pen);
        self.put(&mut inner, Raise { label, until: end.block as u8 });
        for _ in 0..self.random.between(0, 2) {
            match self.random.below(3) {
                0 => self.branch_and_join(&mut inner, nesting + 1)?,
                _ => self.branch_and_end(&mut inner, nesting + 1)?,
            }
        }
        let length = self.random.below(3);
        self.body(&mut inner, length, nesting + 1)?;
        self.finish(&mut inner)?;
        std::mem::swap(pen, &mut end);
        Some(())
    }

    /// The signature of the block where a region ends: what is kept as it was, and the rest at or above the region's label, so that
    /// it can be made inside.
    fn region_end(&mut self, inner: &Pen, label: u8) -> usize {
        let mut registers = [NONSENSE; REGISTERS];
        for number in 0..usize::from(LINK) {
            registers[number] = if inner.kept[number] {
                inner.registers[number]
            } else if self.random.once_in(3) {
                let more = self.any_label();
                Type::new(self.some_sort(inner.registers[number].sort), self.kind.join(label, more))
            } else {
                NONSENSE
            };
        }
        let mut stack: Vec<Type> = inner.stack[..inner.kept_depth].to_vec();
        let depth = self.random.between(inner.kept_depth, (inner.stack.len() + 1).min(MAX_DEPTH));
        while stack.len() < depth {
            let typed = stack.len() < 6 && self.random.once_in(3);
            let sort = if typed { self.some_sort(Sort::Integer) } else { Sort::Nonsense };
            stack.push(Type::new(sort, label));
        }
        self.signatures.push(DraftSignature { context: inner.context, registers, stack });
        self.signatures.len() - 1
    }

    fn some_sort(&mut self, present: Sort) -> Sort {
        match self.random.below(6) {
            0..=2 => present,
            3 => Sort::Pointer(self.random.below(self.shapes.len()) as u8),
            4 => {
                let block = self.random.below(self.blocks.len());
                Sort::Code(self.blocks[block].signature as u8)
            }
            _ => Sort::Integer,
        }
    }

    /// A loop that a counter ends.
    fn counted_loop(&mut self, pen: &mut Pen, nesting: usize) -> Option<()> {
        let free: Vec<u8> = (0..SCRATCH).filter(|&r| !pen.kept[usize::from(r)]).collect();
        let Some(counter) = self.random.pick(&free) else {
            return Some(());
        };
        let rounds = self.random.between(1, 4) as u16;
        self.put(pen, Number { to: counter, value: rounds });
        pen.kept[usize::from(counter)] = true;
        let signature = self.signature_from(pen, true);
        let head = self.open_keeping(signature, pen);
        let start = head.block;
        self.jump(pen, start)?;
        *pen = head;
        let length = self.random.below(3);
        self.body(pen, length, nesting + 1)?;
        self.put(pen, Number { to: SCRATCH, value: 1 });
        self.put(pen, Subtract { to: counter, left: counter, right: SCRATCH });
        self.prepare(pen, self.blocks[start].signature)?;
        self.put(pen, Block { to: LINK, block: start as u8 });
        self.put(pen, Branch { test: counter, target: LINK });
        pen.kept[usize::from(counter)] = false;
        self.roll_over(pen)
    }

    /// A jump to one of two blocks, chosen by a word of the job through a code cell.
    fn dispatch(&mut self, pen: &mut Pen, nesting: usize) -> Option<()> {
        let common = self.signature_from(pen, true);
        let mut ways = [self.open_keeping(common, pen), self.open_keeping(common, pen)];
        let t = pen.label();
        self.shapes.push(vec![Type::code(common as u8, t)]);
        self.tuples.push(DraftTuple { shape: self.shapes.len() - 1, words: vec![ways[0].block as u32] });
        let tuple = (self.tuples.len() - 1) as u8;

        // The present block writes registers before it goes there as well.
        let mut choosing = self.branch_to_new(pen, true);
        self.put(pen, Tuple { to: LINK, tuple });
        self.put(pen, Block { to: SCRATCH, block: ways[1].block as u8 });
        self.put(pen, Store { pointer: LINK, from: SCRATCH, cell: 0 });
        self.jump(pen, choosing.block)?;

        self.prepare(&mut choosing, common)?;
        self.put(&mut choosing, Tuple { to: LINK, tuple });
        self.put(&mut choosing, Fetch { to: LINK, pointer: LINK, cell: 0 });
        self.put(&mut choosing, Jump { target: LINK });

        for way in &mut ways {
            let length = self.random.below(3);
            self.body(way, length, nesting + 1)?;
        }
        let [mut first, mut second] = ways;
        let signature = self.signature_from(&first, true);
        let joined = self.open_keeping(signature, &first);
        self.jump(&mut first, joined.block)?;
        self.jump(&mut second, joined.block)?;
        *pen = joined;
        Some(())
    }

    /// A branch to whatever block can be gone to as things are, backwards too: it may never come back.
    fn wild_branch(&mut self, pen: &mut Pen) {
        let test = self.test(pen);
        let fitting: Vec<usize> = (0..self.blocks.len())
            .filter(|&b| self.may_reuse(&self.signatures[self.blocks[b].signature], pen, false))
            .collect();
        if let Some(block) = self.random.pick(&fitting) {
            self.link(pen, block);
            self.put(pen, Branch { test, target: LINK });
        }
    }

    /// A block that nothing goes to, in a context of its own.
    fn dead_block(&mut self) {
        if self.signatures.len() >= 64 || self.blocks.len() >= 128 {
            return;
        }
        let until = self.random.below(self.blocks.len()) as u8;
        let label = self.any_label();
        let context = if self.random.once_in(3) { None } else { Some(Raised { label, until }) };
        let registers = [NONSENSE; REGISTERS];
        let depth = self.random.below(33);
        self.signatures.push(DraftSignature { context, registers, stack: vec![NONSENSE; depth] });
        let mut pen = self.open(self.signatures.len() - 1);
        let block = pen.block as u8;
        self.put(&mut pen, Block { to: LINK, block });
        self.put(&mut pen, Jump { target: LINK });
    }

    // --- single words ---

    fn step(&mut self, pen: &mut Pen) {
        let to = self.writable(pen);
        match self.random.below(15) {
            0 => self.make(pen, to, Sort::Integer),
            1 => {
                let tuple = self.random.below(self.tuples.len()) as u8;
                self.put(pen, Tuple { to, tuple });
            }
            2 => {
                let block = self.random.below(self.blocks.len()) as u8;
                self.put(pen, Block { to, block });
            }
            3 => {
                let from = self.random.below(REGISTERS) as u8;
                self.put(pen, Copy { to, from });
            }
            4 | 5 => self.sum(pen, to),
            6 | 7 => self.fetch(pen, to),
            8 | 9 => self.store(pen),
            10 => self.push_or_pop(pen),
            11 => self.peek_or_poke(pen, to),
            _ => self.strike(pen),
        }
    }

    fn sum(&mut self, pen: &mut Pen, to: u8) {
        let integer = |_: &Draft, ty: Type| ty.sort == Sort::Integer;
        if self.registers_where(pen, integer).is_none() {
            self.make(pen, SCRATCH, Sort::Integer);
        }
        let left = self.registers_where(pen, integer).unwrap_or(SCRATCH);
        let right = self.registers_where(pen, integer).unwrap_or(SCRATCH);
        let instruction = if self.random.once_in(2) { Add { to, left, right } } else { Subtract { to, left, right } };
        self.put(pen, instruction);
    }

    fn fetch(&mut self, pen: &mut Pen, to: u8) {
        let pointer = match self.registers_where(pen, |_, ty| matches!(ty.sort, Sort::Pointer(_))) {
            Some(pointer) => pointer,
            None => {
                let tuple = self.random.below(self.tuples.len()) as u8;
                self.put(pen, Tuple { to: LINK, tuple });
                LINK
            }
        };
        if let Sort::Pointer(shape) = pen.registers[usize::from(pointer)].sort {
            let cell = self.random.below(self.shapes[usize::from(shape)].len()) as u8;
            self.put(pen, Fetch { to, pointer, cell });
        }
    }

    /// A store through any pointer that is there, or a new one, of any value that is there, or a new one.
    fn store(&mut self, pen: &mut Pen) {
        let there = self.registers_where(pen, |_, ty| matches!(ty.sort, Sort::Pointer(_)));
        let pointer = match there {
            Some(pointer) if self.random.once_in(2) => pointer,
            _ => {
                let tuple = self.random.below(self.tuples.len()) as u8;
                self.put(pen, Tuple { to: LINK, tuple });
                LINK
            }
        };
        let of_pointer = pen.registers[usize::from(pointer)];
        let Sort::Pointer(shape) = of_pointer.sort else { return };
        let reach = self.kind.join(pen.label(), of_pointer.label);
        let types = self.shapes[usize::from(shape)].clone();
        let cells: Vec<usize> = (0..types.len()).filter(|&cell| self.under(reach, types[cell].label)).collect();
        let Some(cell) = self.random.pick(&cells) else { return };
        let wanted = types[cell];
        let from = match self.registers_where(pen, |d, ty| ty.sort == wanted.sort && d.under(ty.label, wanted.label)) {
            Some(from) => from,
            None if pointer != SCRATCH => {
                self.make(pen, SCRATCH, wanted.sort);
                SCRATCH
            }
            None => return,
        };
        self.put(pen, Store { pointer, from, cell: cell as u8 });
    }

    fn push_or_pop(&mut self, pen: &mut Pen) {
        let depth = pen.stack.len();
        let over = depth - pen.kept_depth;
        if over > 0 && self.random.once_in(2) {
            let count = self.random.between(0, over) as u8;
            self.put(pen, Pop { count });
        } else {
            let room = MAX_DEPTH - depth;
            let count = if self.random.once_in(10) { room } else { self.random.between(0, room.min(3)) };
            self.put(pen, Push { count: count as u8 });
        }
    }

    fn peek_or_poke(&mut self, pen: &mut Pen, to: u8) {
        if pen.stack.len() == pen.kept_depth {
            if pen.stack.len() == MAX_DEPTH {
                return;
            }
            self.put(pen, Push { count: 1 });
        }
        let over = pen.stack.len() - pen.kept_depth;
        if self.random.once_in(3) {
            let slot = self.random.below(pen.stack.len()) as u8;
            self.put(pen, Peek { to, slot });
        } else {
            let slot = self.random.below(over.min(4)) as u8;
            let from = self.random.below(REGISTERS) as u8;
            self.put(pen, Poke { from, slot });
        }
    }

    fn strike(&mut self, pen: &mut Pen) {
        let t = pen.label();
        let open: Vec<usize> = (0..self.channels.len()).filter(|&c| self.under(t, self.channels[c])).collect();
        let Some(channel) = self.random.pick(&open) else { return };
        let label = self.channels[channel];
        let there = self.registers_where(pen, |d, ty| ty.sort == Sort::Integer && d.under(ty.label, label));
        let from = match (there, self.integer_cell_under(label)) {
            (Some(from), _) if self.random.once_in(2) => from,
            (_, Some((tuple, cell))) => {
                self.put(pen, Tuple { to: LINK, tuple: tuple as u8 });
                self.put(pen, Fetch { to: SCRATCH, pointer: LINK, cell });
                SCRATCH
            }
            (Some(from), None) => from,
            (None, None) => {
                self.make(pen, SCRATCH, Sort::Integer);
                SCRATCH
            }
        };
        self.put(pen, Strike { channel: channel as u8, from });
    }

    // --- the image ---

    fn encode(&self) -> Option<Vec<u32>> {
        let cells: usize = self.tuples.iter().map(|tuple| tuple.words.len()).sum();
        let too_many = self.shapes.len() > 32 || self.signatures.len() > 64 || self.tuples.len() > 64 || self.blocks.len() > 128;
        let too_long = self.blocks.iter().any(|block| block.words.is_empty() || block.words.len() > 64);
        if too_many || too_long || cells > 256 {
            return None;
        }
        let mut words = Vec::new();
        for &label in &self.channels {
            words.push(word(CHANNEL, 0, 0, label));
        }
        for types in &self.shapes {
            words.push(word(SHAPE, 0, 0, types.len() as u8));
            words.extend(types.iter().map(|of_type| of_type.encode()));
        }
        for signature in &self.signatures {
            let depth = signature.stack.len() as u8;
            words.push(match signature.context {
                None => word(SIGNATURE, 0, 0, depth),
                Some(raised) => word(SIGNATURE, raised.label, raised.until, depth | 0x80),
            });
            words.extend(signature.registers.iter().map(|of_type| of_type.encode()));
            words.extend(signature.stack.iter().rev().map(|of_type| of_type.encode()));
        }
        for tuple in &self.tuples {
            words.push(word(TUPLE, 0, tuple.words.len() as u8, tuple.shape as u8));
            words.extend(&tuple.words);
        }
        for block in &self.blocks {
            words.push(word(BLOCK, 0, block.signature as u8, block.words.len() as u8));
            words.extend(block.words.iter().map(|instruction| instruction.encode()));
        }
        if words.len() > 2048 {
            return None;
        }
        Some(words)
    }
}

/// An accepted image. Falls back on trying again: few drafts outgrow a limit.
pub fn accepted(kind: &Kind, random: &mut Random, size: Size) -> Vec<u32> {
    loop {
        if let Some(image) = well_typed(kind, random, size) {
            if check(kind, &image).is_ok() {
                return image;
            }
        }
    }
}
