//! One block of a transducer: what it takes from each operand and puts to its output.

use crate::code::Transducer;
use crate::stream::Stream;

/// Runs one block; none where it has no value.
pub fn block(transducer: &Transducer, cursors: &mut [Cursor], output: &mut Output) -> Option<()> {
    match transducer {
        Transducer::Const(number) => output.number(i64::from(*number))?,
        Transducer::ConstTruth(truth) => output.truth(*truth),
        Transducer::ToFlags(_) => {
            output.false_flags(usize::try_from(cursors[0].number()).ok()?);
            output.true_flag();
        }
        Transducer::Usum(_) => {
            while !cursors[0].flag() {
                output.unit();
            }
        }
        Transducer::MapTwoPlus(..) => {
            let sum = cursors[0].number() + cursors[1].number();
            output.number(sum)?;
        }
        Transducer::MapTwoAtMost(..) => {
            let at_most = cursors[0].number() <= cursors[1].number();
            output.truth(at_most);
        }
        Transducer::MapTwoEqual(..) => {
            let equal = cursors[0].number() == cursors[1].number();
            output.truth(equal);
        }
        Transducer::MapOneNot(_) => output.truth(!cursors[0].truth()),
        Transducer::ScanPlus { .. } => {
            let mut before = 0;
            while !cursors[0].flag() {
                output.number(before)?;
                before += cursors[1].number();
            }
        }
        Transducer::SumPlus { .. } => {
            let mut total = 0;
            while !cursors[0].flag() {
                total += cursors[1].number();
            }
            output.number(total)?;
        }
        Transducer::Distr { .. } => {
            let element = cursors[1].element();
            while !cursors[0].flag() {
                output.element(element);
            }
        }
        Transducer::BoolToUnary(_) => {
            output.false_flags(usize::from(cursors[0].truth()));
            output.true_flag();
        }
        Transducer::Pack { .. } => {
            let (kept, element) = (cursors[0].truth(), cursors[1].element());
            if kept {
                output.element(element);
            }
        }
        Transducer::UnaryPack { .. } => {
            let kept = cursors[0].truth();
            let mut items = 0;
            while !cursors[1].flag() {
                items += 1;
            }
            if kept {
                output.false_flags(items);
                output.true_flag();
            }
        }
    }
    Some(())
}

/// An element of a data stream.
#[derive(Clone, Copy)]
enum Element {
    Number(i32),
    Truth(bool),
}

/// An operand, and how much of it the blocks so far have taken.
pub struct Cursor<'a> {
    stream: &'a Stream,
    taken: usize,
}

impl Cursor<'_> {
    pub fn new(stream: &Stream) -> Cursor<'_> {
        Cursor { stream, taken: 0 }
    }

    fn element(&mut self) -> Element {
        self.taken += 1;
        match self.stream {
            Stream::Numbers(numbers) => Element::Number(numbers[self.taken - 1]),
            Stream::Bools(bools) => Element::Truth(bools[self.taken - 1]),
            _ => panic!("a data stream"),
        }
    }

    fn number(&mut self) -> i64 {
        let Element::Number(number) = self.element() else { panic!("a stream of numbers") };
        i64::from(number)
    }

    fn truth(&mut self) -> bool {
        let Element::Truth(truth) = self.element() else { panic!("a stream of bools") };
        truth
    }

    fn flag(&mut self) -> bool {
        let Stream::Flags(flags) = self.stream else { panic!("a stream of flags") };
        self.taken += 1;
        flags[self.taken - 1]
    }

    pub fn is_used_up(&self) -> bool {
        self.taken == self.stream.length()
    }
}

/// The stream being made. Elements past the free room are only counted, since 9 follows.
pub struct Output {
    pub stream: Stream,
    pub length: usize,
    free: usize,
}

impl Output {
    /// Nothing made yet, with so much room free. `operands` are the transducer's own.
    pub fn new(transducer: &Transducer, operands: &[&Stream], free: usize) -> Output {
        let stream = match transducer {
            Transducer::Const(_)
            | Transducer::MapTwoPlus(..)
            | Transducer::ScanPlus { .. }
            | Transducer::SumPlus { .. } => Stream::Numbers(vec![]),
            Transducer::ConstTruth(_)
            | Transducer::MapTwoAtMost(..)
            | Transducer::MapTwoEqual(..)
            | Transducer::MapOneNot(_) => Stream::Bools(vec![]),
            Transducer::ToFlags(_) | Transducer::BoolToUnary(_) | Transducer::UnaryPack { .. } => {
                Stream::Flags(vec![])
            }
            Transducer::Usum(_) => Stream::Units(0),
            Transducer::Distr { .. } | Transducer::Pack { .. } => operands[1].empty_like(),
        };
        Output { stream, length: 0, free }
    }

    fn element(&mut self, element: Element) {
        self.length += 1;
        let fits = self.length <= self.free;
        match (&mut self.stream, element) {
            (Stream::Numbers(numbers), Element::Number(number)) if fits => numbers.push(number),
            (Stream::Bools(bools), Element::Truth(truth)) if fits => bools.push(truth),
            (Stream::Numbers(_), Element::Number(_)) | (Stream::Bools(_), Element::Truth(_)) => {}
            _ => panic!("an element of the stream's kind"),
        }
    }

    fn number(&mut self, number: i64) -> Option<()> {
        self.element(Element::Number(i32::try_from(number).ok()?));
        Some(())
    }

    fn truth(&mut self, truth: bool) {
        self.element(Element::Truth(truth));
    }

    fn false_flags(&mut self, count: usize) {
        let Stream::Flags(flags) = &mut self.stream else { panic!("a stream of flags") };
        self.length += count;
        if self.length <= self.free {
            flags.resize(self.length, false);
        }
    }

    fn true_flag(&mut self) {
        let Stream::Flags(flags) = &mut self.stream else { panic!("a stream of flags") };
        self.length += 1;
        if self.length <= self.free {
            flags.push(true);
        }
    }

    fn unit(&mut self) {
        let Stream::Units(count) = &mut self.stream else { panic!("a stream of units") };
        self.length += 1;
        *count += 1;
    }
}
