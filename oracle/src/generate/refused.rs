//! Changes of accepted images towards one refusal.

use super::Random;
use crate::checker::check;
use crate::kinds::Kind;
use crate::layout::{self, lay_out, Items, Raised, REGISTERS};
use crate::words::{fields, word, Instruction, Type, BLOCK, CHANNEL, NONSENSE, SHAPE, SIGNATURE, TUPLE};
use Instruction::*;

/// A change of an accepted image that is meant to be refused by `number`, 1 to 12. `None` where no attempt was.
pub fn refused_by(number: u8, kind: &Kind, random: &mut Random, image: &[u32]) -> Option<Vec<u32>> {
    let items = lay_out(image).ok()?;
    for _ in 0..30 {
        let changed = attempt(number, kind, random, image, &items)?;
        if matches!(check(kind, &changed), Err(refusal) if refusal.number == number) {
            return Some(changed);
        }
    }
    None
}

/// The places of the words that follow a head.
fn inside(place: usize, count: usize) -> std::ops::Range<usize> {
    place + 1..place + 1 + count
}

/// The places of all instructions; with `last` also those that end blocks.
fn instruction_places(items: &Items, last: bool) -> Vec<usize> {
    let count = |block: &layout::Block| if last { block.count } else { block.count - 1 };
    items.blocks.iter().flat_map(|block| inside(block.place, count(block))).collect()
}

fn type_places(items: &Items) -> Vec<usize> {
    let shapes = items.shapes.iter().flat_map(|shape| inside(shape.place, items.shape_types(shape).len()));
    let signatures = items.signatures.iter().flat_map(|signature| inside(signature.place, REGISTERS + signature.depth));
    shapes.chain(signatures).collect()
}

fn cell_places(items: &Items) -> Vec<usize> {
    items.tuples.iter().flat_map(|tuple| inside(tuple.place, tuple.count)).collect()
}

fn with(image: &[u32], place: usize, word: u32) -> Vec<u32> {
    let mut words = image.to_vec();
    words[place] = word;
    words
}

fn attempt(number: u8, kind: &Kind, random: &mut Random, image: &[u32], items: &Items) -> Option<Vec<u32>> {
    let small = random.below(8) as u8;
    Some(match number {
        1 => too_many_words(random, image),
        2 => misplaced(random, image, items)?,
        3 => outside_limits(random, image, items),
        4 => not_there(random, image, items)?,
        5 => no_label(kind, random, image, items)?,
        6 => no_start(random, image, items),
        7 => wrong_tuple(random, image, items)?,
        8 => {
            let place = random.pick(&instruction_places(items, true))?;
            let ends = fields(image[place]).0 >= 0x30;
            let other = random.below(8) as u8;
            let new = match random.below(6) {
                _ if ends => Jump { target: small },
                0 => Add { to: 0, left: small, right: other },
                1 => Subtract { to: 7, left: other, right: small },
                2 => Fetch { to: 1, pointer: small, cell: other },
                3 => Store { pointer: small, from: other, cell: random.below(17) as u8 },
                4 => Strike { channel: 0, from: small },
                _ => Branch { test: small, target: other },
            };
            with(image, place, new.encode())
        }
        9 => {
            let place = random.pick(&instruction_places(items, false))?;
            let count = if random.once_in(2) { random.between(1, 34) as u8 } else { random.byte() };
            let new = match random.below(4) {
                0 => Push { count },
                1 => Pop { count },
                2 => Peek { to: small, slot: count },
                _ => Poke { from: small, slot: count },
            };
            with(image, place, new.encode())
        }
        10 => wrong_label(kind, random, image, items)?,
        11 => wrong_context(random, image, items)?,
        12 => {
            if random.once_in(2) {
                let place = random.pick(&instruction_places(items, false))?;
                with(image, place, Push { count: 1 + small % 3 }.encode())
            } else {
                let places = items.signatures.iter().flat_map(|signature| inside(signature.place, REGISTERS + signature.depth));
                let place = random.pick(&places.collect::<Vec<usize>>())?;
                with(image, place, Type::integer(fields(image[place]).3).encode())
            }
        }
        _ => return None,
    })
}

fn too_many_words(random: &mut Random, image: &[u32]) -> Vec<u32> {
    let length = random.between(2049, 2100);
    image.iter().copied().cycle().take(length).collect()
}

fn misplaced(random: &mut Random, image: &[u32], items: &Items) -> Option<Vec<u32>> {
    let place = random.below(image.len());
    Some(match random.below(8) {
        0 => image[..place].to_vec(),
        1 => with(image, place, image[place] | 1 << (8 + random.below(16))),
        2 => with(image, place, word(0x2F, 0, 0, 0)),
        3 => with(image, random.pick(&instruction_places(items, false))?, Halt.encode()),
        4 => with(image, items.blocks.last()?.place + items.blocks.last()?.count, Push { count: 0 }.encode()),
        5 => with(image, items.shapes.first()?.place + 1, NONSENSE.encode()),
        6 => {
            // An empty context names no label and no postdominator.
            let signature = items.signatures.iter().find(|signature| signature.context.is_none())?;
            with(image, signature.place, image[signature.place] | 1 << (8 + random.below(16)))
        }
        _ => with(image, place, word(random.byte(), 0, 0, 0)),
    })
}

fn outside_limits(random: &mut Random, image: &[u32], items: &Items) -> Vec<u32> {
    let mut words = image.to_vec();
    match random.below(9) {
        0 => {
            for _ in 0..17 {
                words.insert(0, word(CHANNEL, 0, 0, 0));
            }
        }
        1 => {
            for shape in items.shapes.iter().take(1) {
                words[shape.place] = word(SHAPE, 0, 0, if random.once_in(2) { 0 } else { random.between(17, 255) as u8 });
            }
        }
        2 => {
            for signature in &items.signatures {
                if random.once_in(2) {
                    let c = fields(words[signature.place]).3;
                    words[signature.place] = words[signature.place] & !0x7F | random.between(33, 127) as u32 | u32::from(c & 0x80);
                }
            }
        }
        3 => {
            for tuple in items.tuples.iter().take(1) {
                let cells = if random.once_in(2) { 0 } else { random.between(17, 255) as u8 };
                words[tuple.place] = word(TUPLE, 0, cells, tuple.shape);
            }
        }
        4 => {
            let block = &items.blocks[random.below(items.blocks.len())];
            let count = if random.once_in(2) { 0 } else { random.between(65, 255) as u8 };
            words[block.place] = word(BLOCK, 0, block.signature, count);
        }
        5 => words.truncate(items.blocks[0].place),
        6 => {
            // Too many cells together, or too many tuples.
            let (tuples, cells) = if random.once_in(2) { (17, 16) } else { (65, 1) };
            let at = items.blocks[0].place;
            for _ in 0..tuples {
                words.splice(at..at, std::iter::once(word(TUPLE, 0, cells, 0)).chain((0..cells).map(|_| 0)));
            }
        }
        7 => {
            for _ in 0..129 {
                words.extend([word(BLOCK, 0, 0, 1), Halt.encode()]);
            }
        }
        _ => {
            // Too many shapes, or too many signatures, at the front of their section.
            if random.once_in(2) {
                let at = items.channels.len();
                for _ in 0..33 {
                    words.splice(at..at, [word(SHAPE, 0, 0, 1), Type::integer(0).encode()]);
                }
            } else {
                let at = items.signatures.first().map_or(0, |signature| signature.place);
                for _ in 0..65 {
                    words.splice(at..at, std::iter::once(word(SIGNATURE, 0, 0, 0)).chain((0..8).map(|_| NONSENSE.encode())));
                }
            }
        }
    }
    words
}

fn not_there(random: &mut Random, image: &[u32], items: &Items) -> Option<Vec<u32>> {
    let many = if random.once_in(2) { random.between(8, 12) } else { random.between(8, 255) } as u32;
    Some(match random.below(8) {
        0 => {
            let place = random.pick(&type_places(items))?;
            let (kind, _, _, c) = fields(image[place]);
            let label = if random.once_in(2) { random.byte() } else { c };
            with(image, place, if kind < 0x12 { image[place] } else { word(kind, many as u8, 0, label) })
        }
        1 => {
            let place = random.pick(&cell_places(items))?;
            with(image, place, if random.once_in(2) { many } else { random.word() })
        }
        2 => {
            let tuple = &items.tuples[random.below(items.tuples.len())];
            with(image, tuple.place, word(TUPLE, 0, tuple.count as u8, many as u8))
        }
        3 => {
            let block = &items.blocks[random.below(items.blocks.len())];
            with(image, block.place, word(BLOCK, 0, many as u8, block.count as u8))
        }
        4 => {
            let signature = &items.signatures[random.below(items.signatures.len())];
            let raised = signature.context?;
            let label = if random.once_in(2) { random.byte() } else { raised.label };
            with(image, signature.place, word(SIGNATURE, label, many as u8, signature.depth as u8 | 0x80))
        }
        5 => {
            let place = random.pick(&instruction_places(items, false))?;
            with(image, place, Raise { label: random.byte(), until: many as u8 }.encode())
        }
        _ => {
            let place = random.pick(&instruction_places(items, true))?;
            let shift = 8 * random.below(3);
            with(image, place, image[place] & !(0xFF << shift) | many << shift)
        }
    })
}

fn no_label(kind: &Kind, random: &mut Random, image: &[u32], items: &Items) -> Option<Vec<u32>> {
    let labels = usize::from(kind.count());
    if labels == 256 {
        return None;
    }
    let code = random.between(labels, 255) as u8;
    Some(match random.below(4) {
        0 if !items.channels.is_empty() => with(image, random.below(items.channels.len()), word(CHANNEL, 0, 0, code)),
        1 => {
            let raised: Vec<usize> =
                instruction_places(items, false).into_iter().filter(|&place| fields(image[place]).0 == 0x2D).collect();
            let place = random.pick(&raised).unwrap_or(0);
            with(image, place, image[place] & !0xFF0000 | u32::from(code) << 16)
        }
        2 => {
            let raised: Vec<usize> =
                items.signatures.iter().filter(|signature| signature.context.is_some()).map(|signature| signature.place).collect();
            let place = random.pick(&raised).unwrap_or(0);
            with(image, place, image[place] & !0xFF0000 | u32::from(code) << 16)
        }
        _ => {
            let place = random.pick(&type_places(items))?;
            with(image, place, if fields(image[place]).0 == 0x10 { image[place] } else { image[place] & !0xFF | u32::from(code) })
        }
    })
}

fn no_start(random: &mut Random, image: &[u32], items: &Items) -> Vec<u32> {
    let block = &items.blocks[0];
    let signature = &items.signatures[usize::from(block.signature)];
    match random.below(4) {
        0 => {
            let other = random.below(items.signatures.len()) as u8;
            with(image, block.place, word(BLOCK, 0, other, block.count as u8))
        }
        1 => with(image, signature.place, word(SIGNATURE, 0, 0, 0x80)),
        2 => {
            let mut words = with(image, signature.place, word(SIGNATURE, 0, 0, 1));
            words.insert(signature.place + 1, NONSENSE.encode());
            words
        }
        _ => {
            let wrong = if random.once_in(2) { Type::pointer(0, 0) } else { Type::code(0, 0) };
            with(image, signature.place + 1 + random.below(REGISTERS), wrong.encode())
        }
    }
}

fn wrong_tuple(random: &mut Random, image: &[u32], items: &Items) -> Option<Vec<u32>> {
    let tuple = &items.tuples[random.below(items.tuples.len())];
    Some(match random.below(4) {
        0 => {
            let mut words = with(image, tuple.place, word(TUPLE, 0, tuple.count as u8 + 1, tuple.shape));
            words.insert(tuple.place + 1, 0);
            words
        }
        1 => with(image, tuple.place, word(TUPLE, 0, tuple.count as u8, random.below(items.shapes.len()) as u8)),
        _ => with(image, random.pick(&cell_places(items))?, random.below(items.tuples.len().max(4)) as u32),
    })
}

fn wrong_label(kind: &Kind, random: &mut Random, image: &[u32], items: &Items) -> Option<Vec<u32>> {
    let label = if random.once_in(2) { 0 } else { random.below(usize::from(kind.count())) as u8 };
    Some(match random.below(4) {
        0 => {
            let place = random.pick(&type_places(items))?;
            with(image, place, if fields(image[place]).0 == 0x10 { image[place] } else { image[place] & !0xFF | u32::from(label) })
        }
        1 if !items.channels.is_empty() => with(image, random.below(items.channels.len()), word(CHANNEL, 0, 0, label)),
        2 => {
            let place = random.pick(&instruction_places(items, false))?;
            let new = Strike { channel: random.below(items.channels.len()) as u8, from: random.below(8) as u8 };
            with(image, place, new.encode())
        }
        _ => {
            let place = random.pick(&instruction_places(items, false))?;
            let new = if fields(image[place]).0 == 0x2D {
                image[place] & !0xFF0000 | u32::from(label) << 16
            } else {
                Branch { test: random.below(8) as u8, target: random.below(8) as u8 }.encode()
            };
            with(image, place, new)
        }
    })
}

fn wrong_context(random: &mut Random, image: &[u32], items: &Items) -> Option<Vec<u32>> {
    let block = &items.blocks[random.below(items.blocks.len())];
    let last = block.place + block.count;
    let other = random.below(items.blocks.len()) as u8;
    Some(match random.below(4) {
        0 => with(image, last, Halt.encode()),
        1 => with(image, last, Lower { block: other }.encode()),
        2 => {
            let place = random.pick(&instruction_places(items, false))?;
            with(image, place, Raise { label: fields(image[place]).1 & 0xF, until: other }.encode())
        }
        _ => {
            let signature = &items.signatures[random.below(items.signatures.len())];
            let raised = signature.context.unwrap_or(Raised { label: 0, until: 0 });
            let label = if random.once_in(2) { raised.label ^ 1 } else { raised.label };
            with(image, signature.place, word(SIGNATURE, label, other, signature.depth as u8 | 0x80))
        }
    })
}
