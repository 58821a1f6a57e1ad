//! An independent model of document 01 and of document 02's request 1, over nested vectors.
//!
//! It is written from the documents alone, to be compared with the verified library. A formula is
//! read (`formula`), checked (`types`) and evaluated element by element (`evaluate`), which gives
//! the value, work and steps by the charge table. Apart from that it is translated (`translate`) to
//! stream code (`code`) and run on streams (`machine`), which gives the stream buffer's content, the
//! room, and refusals 8 and 9 with their ids. Where a run goes through, each side checks the other.
//!
//! The functions here answer over sizes lent; those of `lent` answer over the lent buffers
//! themselves and show what each holds afterwards; `vectors` answers the lines of the vectors.

#![forbid(unsafe_code)]

mod block;
pub mod code;
pub mod evaluate;
pub mod formula;
pub mod lent;
pub mod limits;
pub mod listing;
pub mod machine;
mod pack;
pub mod record;
pub mod refusal;
pub mod representation;
pub mod run;
pub mod stream;
pub mod translate;
pub mod types;
pub mod value;
pub mod value_type;
pub mod vectors;

pub use formula::find;
pub use listing::list;
pub use refusal::Refusal;
pub use representation::{streams_to_text, text_to_streams};
pub use run::run;
pub use types::check;
pub use value_type::{Base, Type};
