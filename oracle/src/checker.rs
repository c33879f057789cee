//! The check: three passes, the first fault of the first pass that finds one (`docs/refusals.md`).

use crate::flow::check_flow;
use crate::kinds::Kind;
use crate::layout::{lay_out, Items};
use crate::naming::check_names;
use crate::words::{Sort, Type};

#[derive(Clone, Copy, Debug, PartialEq, Eq)]
pub enum Pass {
    Layout,
    Naming,
    Flow,
}

#[derive(Clone, Copy, Debug, PartialEq, Eq)]
pub struct Refusal {
    pub number: u8,
    pub place: usize,
    pub pass: Pass,
}

/// The rules that can be left out, one by one, to see that each keeps a leak out. All hold in every box; only the directed leak trials
/// leave one out.
#[derive(Clone, Copy, Debug, PartialEq, Eq)]
pub struct Rules {
    /// A store asks that the pointer's label is under the cell's.
    pub store_pointer_label: bool,
    /// The context's label joins every label that is written to a register.
    pub context_joins_registers: bool,
    /// The context's label joins every label that is poked into a slot.
    pub context_joins_slots: bool,
    /// A raise asks that the block's context is the present one.
    pub raise_context: bool,
    /// A branch asks that its test is under the context.
    pub branch_label: bool,
    /// A jump asks that its target is under the context.
    pub jump_label: bool,
    /// A halt asks for an empty context.
    pub halt_context: bool,
    /// A transfer compares the labels of raised contexts.
    pub transfer_label: bool,
    /// A transfer compares the postdominators of raised contexts.
    pub transfer_postdominator: bool,
}

pub const ALL_RULES: Rules = Rules {
    store_pointer_label: true,
    context_joins_registers: true,
    context_joins_slots: true,
    raise_context: true,
    branch_label: true,
    jump_label: true,
    halt_context: true,
    transfer_label: true,
    transfer_postdominator: true,
};

/// An accepted image, decoded.
#[derive(Clone, Debug)]
pub struct Program {
    pub items: Items,
    /// The type of each cell, in the order in which cells lie.
    pub cell_types: Vec<Type>,
    /// Which of them are integer cells: those that the job fills.
    pub integer_cells: Vec<usize>,
}

pub fn check(kind: &Kind, words: &[u32]) -> Result<Program, Refusal> {
    check_with(kind, words, &ALL_RULES)
}

pub fn check_with(kind: &Kind, words: &[u32], rules: &Rules) -> Result<Program, Refusal> {
    let items = lay_out(words)?;
    check_names(kind, &items)?;
    check_flow(kind, &items, rules)?;
    Ok(program(items))
}

/// Decodes an image that some box has accepted, without a verdict on its flow: enough to say what a reader may see of it.
pub fn decode(kind: &Kind, words: &[u32]) -> Result<Program, Refusal> {
    let items = lay_out(words)?;
    check_names(kind, &items)?;
    Ok(program(items))
}

fn program(items: Items) -> Program {
    let mut cell_types = Vec::with_capacity(items.cells.len());
    for tuple in &items.tuples {
        cell_types.extend_from_slice(items.shape_types(&items.shapes[usize::from(tuple.shape)]));
    }
    let is_integer = |&cell: &usize| cell_types[cell].sort == Sort::Integer;
    let integer_cells = (0..cell_types.len()).filter(is_integer).collect();
    Program { items, cell_types, integer_cells }
}
