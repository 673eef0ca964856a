//! A host's view of Threshpetal: judge a broker's layouts, ask which segments may be read yet, and learn what split, merged and moved.
//!
//! [`Session`] is one watched topic. It owns the areas that the library works in, makes them as long as each call needs, and turns texts into the
//! numbers that the library knows them by, and back. Sessions share nothing, so each thread may have its own.
//! [`lent`] is the layer below, for a host that keeps its own memory: the same calls over slices of words.
//!
//! ```
//! use threshpetal::{Layout, Mode, Segment, Session, Eligibility, Updated};
//!
//! let mut session = Session::new(7);
//! session.update(&Layout::new(0, 60).segment(Segment::active(1, 0, 65535, 0)).to(7))?;
//!
//! // segment 1 is split in two
//! let split = Layout::new(3, 150)
//!     .segment(Segment::sealed(1, 0, 65535, 0, 3).children(&[2, 3]))
//!     .segment(Segment::active(2, 0, 32767, 3).parents(&[1]))
//!     .segment(Segment::active(3, 32768, 65535, 3).parents(&[1]));
//! let Updated::Accepted(delta) = session.update(&split.to(7))? else { panic!("stale") };
//! assert_eq!(delta.splits, [(1, 2), (1, 3)]);
//!
//! // its children may be read once it has been read to its end
//! assert_eq!(session.ordering(3, Mode::Strict, &[1], &[])?, Eligibility::Blocked { incomplete: vec![1], remote: vec![] });
//! assert_eq!(session.ordering(3, Mode::Strict, &[1], &[1])?, Eligibility::Eligible);
//! # Ok::<(), threshpetal::Error>(())
//! ```

mod error;
mod layout;
pub mod lent;
mod session;
mod texts;

pub use error::{Error, Family};
pub use layout::{BrokerError, Layout, Placement, Segment, State, Update};
pub use lent::{Assigned, Limits};
pub use session::{Delta, Eligibility, Held, Mode, Reason, Session, Updated};
