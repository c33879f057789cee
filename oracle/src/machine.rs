//! The erased machine (`docs/machine.md`). It reads no label, no context and no type word.

use crate::checker::Program;
use crate::layout::REGISTERS;
use crate::words::Instruction;

#[derive(Clone, Copy, Debug, Default, PartialEq, Eq)]
pub struct Strike {
    pub channel: u8,
    pub word: u32,
}

#[derive(Clone, Copy, Debug, PartialEq, Eq)]
pub enum End {
    Halted,
    Spent,
    Full,
}

#[derive(Clone, Copy, Debug, PartialEq, Eq)]
pub struct Report {
    pub end: End,
    pub steps: u32,
    pub strikes: usize,
}

/// Lays the cells on the front of the sheet: the job's words in the integer cells, the image's in the others.
fn lay_cells(program: &Program, job: &[u32], cells: &mut [u32]) {
    cells.copy_from_slice(&program.items.cells);
    for (&cell, &word) in program.integer_cells.iter().zip(job) {
        cells[cell] = word;
    }
}

/// One run. The job has a word for each integer cell, and the sheet room for all cells: the box has seen to it.
/// `watch` is told the kind of each word that is done, and of each raise that is passed.
pub fn run(
    program: &Program,
    job: &[u32],
    fuel: u32,
    strip: &mut [Strike],
    sheet: &mut [u32],
    mut watch: impl FnMut(u8),
) -> Report {
    use Instruction::*;
    let items = &program.items;
    let cells = &mut sheet[..items.cells.len()];
    lay_cells(program, job, cells);

    let mut registers = [0u32; REGISTERS];
    let mut stack: Vec<u32> = Vec::new();
    let mut strikes = 0;
    let mut steps = 0;
    // An index into the instructions of all blocks stands for the block and the position in it.
    let start_of = |block: u32| items.blocks[block as usize].first_instruction;
    let cell_of = |tuple: u32, cell: u8| items.tuples[tuple as usize].first_cell + usize::from(cell);
    let mut next = start_of(0);

    let end = loop {
        let instruction = items.instructions[next];
        next += 1;
        if let Raise { .. } = instruction {
            watch(instruction.kind());
            continue;
        }
        if steps == fuel {
            break End::Spent;
        }
        if let Instruction::Strike { .. } = instruction {
            if strikes == strip.len() {
                break End::Full;
            }
        }
        steps += 1;
        watch(instruction.kind());
        match instruction {
            Number { to, value } => registers[usize::from(to)] = u32::from(value),
            Tuple { to, tuple } => registers[usize::from(to)] = u32::from(tuple),
            Block { to, block } => registers[usize::from(to)] = u32::from(block),
            Copy { to, from } => registers[usize::from(to)] = registers[usize::from(from)],
            Add { to, left, right } => {
                registers[usize::from(to)] = registers[usize::from(left)].wrapping_add(registers[usize::from(right)]);
            }
            Subtract { to, left, right } => {
                registers[usize::from(to)] = registers[usize::from(left)].wrapping_sub(registers[usize::from(right)]);
            }
            Fetch { to, pointer, cell } => registers[usize::from(to)] = cells[cell_of(registers[usize::from(pointer)], cell)],
            Store { pointer, from, cell } => {
                cells[cell_of(registers[usize::from(pointer)], cell)] = registers[usize::from(from)];
            }
            Push { count } => stack.resize(stack.len() + usize::from(count), 0),
            Pop { count } => stack.truncate(stack.len() - usize::from(count)),
            Peek { to, slot } => registers[usize::from(to)] = stack[stack.len() - 1 - usize::from(slot)],
            Poke { from, slot } => {
                let index = stack.len() - 1 - usize::from(slot);
                stack[index] = registers[usize::from(from)];
            }
            Instruction::Strike { channel, from } => {
                strip[strikes] = self::Strike { channel, word: registers[usize::from(from)] };
                strikes += 1;
            }
            Branch { test, target } => {
                if registers[usize::from(test)] != 0 {
                    next = start_of(registers[usize::from(target)]);
                }
            }
            Raise { .. } => {}
            Jump { target } => next = start_of(registers[usize::from(target)]),
            Lower { block } => next = start_of(u32::from(block)),
            Halt => break End::Halted,
        }
    };
    Report { end, steps, strikes }
}
