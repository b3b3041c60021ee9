//! Reference simulator of the knee's dispatcher and of its damping, written from document 01 and the
//! first eight requests of document 02 alone.
//!
//! It is meant to be read beside those documents: every step is done the long way, tick by tick and
//! level by level, so that a reader can see that it says what they say. Nothing here is meant to be
//! fast.
//!
//! A host's calls are in `calls`; they take a level block. What is below them is handed the table
//! that was read from it; 01's own is `Levels::base()`. Calls that take no plan are where what they
//! answer is said: passing, showing and the total in `dispatch`, the damping in `knee`.

pub mod bits;
pub mod block;
pub mod books;
pub mod calls;
pub mod clock;
pub mod dispatch;
pub mod forging;
pub mod job;
pub mod knee;
pub mod layout;
pub mod level_block;
pub mod levels;
pub mod listing;
pub mod numbers;
pub mod pairs;
pub mod plan;
pub mod random;
pub mod schedule;
pub mod state;

pub use books::{
    demand3_holds, lone_finishes_hold, pairs_hold, total_holds, ActualBook, PlainBook,
};
pub use calls::{copy_plan, judge, judge_list, pairs, read_plan, start, write_plan};
pub use calls::{damping_number, queued_number};
pub use dispatch::{pass, queued, show, Order};
pub use knee::{damping, refresh_holds, Refresh};
pub use level_block::{read_levels, write_levels};
pub use levels::Levels;
pub use listing::listing;
pub use plan::{Judged, Task};
pub use schedule::Schedule;
