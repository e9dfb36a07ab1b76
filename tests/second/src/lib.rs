//! The second engine: an independent reading of document 01, to be compared with the proved one.
//!
//! One idea a file. The doc comments quote the sentence of document 01 that the code follows; "reading n" is section 7
//! of the design. The class report follows requests E1 and E2 of document 02, counted events and the editions
//! request E4, the steps climbed by an end request E5.

pub mod call;
pub mod census;
pub mod checks;
pub mod class;
pub mod classes;
pub mod climb;
pub mod counts;
pub mod descent;
pub mod edition;
pub mod hold;
pub mod lines;
pub mod link;
pub mod mode;
pub mod nested;
pub mod number;
pub mod object;
pub mod operation;
pub mod perform;
pub mod random;
pub mod record;
pub mod session;
pub mod sheet;
pub mod sheets;
pub mod sound;
pub mod steer;
pub mod unsound;

pub use call::Call;
pub use census::Census;
pub use edition::Edition;
pub use hold::{Hold, Place};
pub use link::{Link, LinkState};
pub use mode::Mode;
pub use object::{Block, BlockState, Event, EventState, EventType, Object, Slot, Task, TaskState, Template};
pub use operation::{Answer, Operation};
pub use record::{parse_sheet, read_record, write_record, Ending};
pub use session::Session;
pub use sheet::{run_over, run_sheet};
pub use unsound::Unsound;
