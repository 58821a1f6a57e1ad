//! Packing a variable's tree by a stream of bools: code that keeps the values whose bool is true.
//!
//! A scalar's stream is packed by `Pack`. Of a list's tree the outermost flags are packed by whole
//! segments, and the rest under a control of one unit for each item, by the bools spread over the
//! items.

use crate::code::{Code, StreamId, Transducer, Tree};
use crate::translate::Translator;

impl Translator {
    pub(crate) fn pack(&mut self, code: &mut Code, bools: StreamId, tree: &[StreamId]) -> Tree {
        let (outermost, items) = tree.split_last().expect("a tree has its data");
        if items.is_empty() {
            return vec![self.define(code, Transducer::Pack { bools, data: *outermost })];
        }
        let flags = *outermost;
        let packed_flags = self.define(code, Transducer::UnaryPack { bools, flags });
        let spread = self.define(code, Transducer::Distr { flags, data: bools });
        let control = self.define(code, Transducer::Usum(flags));
        let mut body = Code::new();
        let mut packed = self.pack(&mut body, spread, items);
        self.with_control(code, control, body, &packed);
        packed.push(packed_flags);
        packed
    }
}
