//! The stream machine: runs stream code by 002's rules, block by block.
//!
//! A transducer runs one block for each unit of the control stream; a block takes what it needs
//! from each operand, and at the end every operand must be used up. Streams are kept till the end.

use crate::block::{block, Cursor, Output};
use crate::code::{Code, Instruction, Program, StreamId, Transducer, Tree};
use crate::limits;
use crate::refusal::Refusal;
use crate::stream::Stream;
use std::collections::BTreeMap;

/// What a run that went through leaves.
pub struct Finished {
    store: BTreeMap<StreamId, Stream>,
    pub room: usize,
    pub work: u64,
    pub steps: u64,
}

impl Finished {
    /// The stream buffer's first `room` elements.
    pub fn buffer(&self) -> Vec<i32> {
        self.store.values().flat_map(Stream::elements).collect()
    }

    /// The streams of a tree, in tree order.
    pub fn tree(&self, tree: &Tree) -> Vec<Vec<i32>> {
        tree.iter().map(|id| self.store[id].elements()).collect()
    }
}

/// Runs a program over its inputs' streams, in a buffer of so many elements: refusals 8 and 9.
pub fn run(
    program: &Program,
    inputs: Vec<Vec<Stream>>,
    elements_lent: usize,
) -> Result<Finished, Refusal> {
    let used = limits::used_part(elements_lent);
    let mut machine =
        Machine { finished: Finished { store: BTreeMap::new(), room: 0, work: 0, steps: 0 }, used };
    for (tree, streams) in program.inputs.iter().zip(inputs) {
        let total = streams.iter().map(Stream::length).sum();
        machine.take_room(total, tree[0])?;
        machine.finished.store.extend(tree.iter().copied().zip(streams));
    }
    machine.execute(&program.code, 1)?;
    Ok(machine.finished)
}

struct Machine {
    finished: Finished,
    used: usize,
}

impl Machine {
    fn execute(&mut self, code: &Code, control: usize) -> Result<(), Refusal> {
        for instruction in code {
            match instruction {
                Instruction::Define { id, transducer } => self.define(*id, transducer, control)?,
                Instruction::WithCtrl { outputs, control, inputs, body } => {
                    let inner = self.finished.store[control].length();
                    if inner > 0 {
                        self.execute(body, inner)?;
                        continue;
                    }
                    let empty = |id| self.finished.store[id].length() == 0;
                    assert!(inputs.iter().all(empty), "a skipped body has only empty inputs");
                    // Empty, so of every kind: nothing reads an element of them.
                    for id in outputs {
                        self.finished.store.insert(*id, Stream::Numbers(vec![]));
                    }
                }
            }
        }
        Ok(())
    }

    fn define(
        &mut self,
        id: StreamId,
        transducer: &Transducer,
        control: usize,
    ) -> Result<(), Refusal> {
        let operands: Vec<&Stream> =
            transducer.operands().iter().map(|id| &self.finished.store[id]).collect();
        let consumed: usize = operands.iter().map(|stream| stream.length()).sum();
        let free = self.used - self.finished.room;
        let mut output = Output::new(transducer, &operands, free);
        let mut cursors: Vec<Cursor> = operands.into_iter().map(Cursor::new).collect();
        for _ in 0..control {
            block(transducer, &mut cursors, &mut output).ok_or(Refusal::new(8, id.0))?;
        }
        assert!(cursors.iter().all(Cursor::is_used_up), "every operand is used up");
        let Output { stream, length, .. } = output;
        if !matches!(stream, Stream::Units(_)) {
            self.take_room(length, id)?;
        }
        self.finished.work += (consumed + length) as u64;
        self.finished.steps += 1;
        self.finished.store.insert(id, stream);
        Ok(())
    }

    fn take_room(&mut self, elements: usize, id: StreamId) -> Result<(), Refusal> {
        if elements > self.used - self.finished.room {
            return Err(Refusal::new(9, id.0));
        }
        self.finished.room += elements;
        Ok(())
    }
}
