//! Stream code: transducers, instructions, and the ids that code defines and uses.

use std::collections::BTreeSet;

/// The name of a stream. Variables are another numbering.
#[derive(Clone, Copy, Debug, PartialEq, Eq, PartialOrd, Ord)]
pub struct StreamId(pub usize);

/// A transducer with its operands. Of those whose names are longer here, 001's `B2u` makes a list of
/// one item of T and an empty one of F, and its `UPack` keeps whole segments of flags.
#[derive(Clone, Copy, Debug)]
pub enum Transducer {
    Const(i32),
    ConstTruth(bool),
    ToFlags(StreamId),
    Usum(StreamId),
    MapTwoPlus(StreamId, StreamId),
    MapTwoAtMost(StreamId, StreamId),
    MapTwoEqual(StreamId, StreamId),
    MapOneNot(StreamId),
    ScanPlus { flags: StreamId, data: StreamId },
    SumPlus { flags: StreamId, data: StreamId },
    Distr { flags: StreamId, data: StreamId },
    BoolToUnary(StreamId),
    Pack { bools: StreamId, data: StreamId },
    UnaryPack { bools: StreamId, flags: StreamId },
}

#[derive(Clone, Debug)]
pub enum Instruction {
    Define { id: StreamId, transducer: Transducer },
    WithCtrl { outputs: Vec<StreamId>, control: StreamId, inputs: Vec<StreamId>, body: Code },
}

pub type Code = Vec<Instruction>;

/// A stream tree as its ids: data, innermost flags, on to outermost flags.
pub type Tree = Vec<StreamId>;

pub struct Program {
    pub inputs: Vec<Tree>,
    pub code: Code,
    pub result: Tree,
}

impl Transducer {
    /// The streams it consumes, as listed.
    pub fn operands(&self) -> Vec<StreamId> {
        match *self {
            Transducer::Const(_) | Transducer::ConstTruth(_) => vec![],
            Transducer::ToFlags(stream)
            | Transducer::Usum(stream)
            | Transducer::MapOneNot(stream)
            | Transducer::BoolToUnary(stream) => vec![stream],
            Transducer::MapTwoPlus(left, right)
            | Transducer::MapTwoAtMost(left, right)
            | Transducer::MapTwoEqual(left, right) => vec![left, right],
            Transducer::ScanPlus { flags, data }
            | Transducer::SumPlus { flags, data }
            | Transducer::Distr { flags, data } => vec![flags, data],
            Transducer::Pack { bools, data } => vec![bools, data],
            Transducer::UnaryPack { bools, flags } => vec![bools, flags],
        }
    }
}

/// The ids that the code defines, by 002's dv.
pub fn defined_ids(code: &Code) -> BTreeSet<StreamId> {
    let mut ids = BTreeSet::new();
    for instruction in code {
        match instruction {
            Instruction::Define { id, .. } => ids.extend([*id]),
            Instruction::WithCtrl { outputs, .. } => ids.extend(outputs),
        }
    }
    ids
}

/// The ids that the code takes from outside, by 002's fv.
pub fn free_ids(code: &Code) -> BTreeSet<StreamId> {
    let mut free = BTreeSet::new();
    let mut defined = BTreeSet::new();
    for instruction in code {
        let used = match instruction {
            Instruction::Define { transducer, .. } => transducer.operands(),
            Instruction::WithCtrl { control, inputs, .. } => {
                inputs.iter().chain([control]).copied().collect()
            }
        };
        free.extend(used.into_iter().filter(|id| !defined.contains(id)));
        match instruction {
            Instruction::Define { id, .. } => defined.extend([*id]),
            Instruction::WithCtrl { outputs, .. } => defined.extend(outputs),
        }
    }
    free
}
