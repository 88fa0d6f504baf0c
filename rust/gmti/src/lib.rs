//! GMTI packets (STANAG 4607, Editions 1 and 3): one packet to one sheet and back, and recordings of many packets.
//!
//! [`read`] sets a packet out on lent memory, as a [`Sheet`] of [`Record`]s with an accessor for every field, or gives the [`Refusal`];
//! [`write()`] turns a sheet back into its packet. Both, [`sheet_bound`] and [`mode_system`] call the verified library: what they decide is
//! proved. What names fields, puts a refusal into words or finds packets in a recording is plain Rust around it, and tested.
//!
//! [`Recording`] finds the packets of a recording, and finds its way again behind damage.
//!
//! Nothing here allocates but `RecordingReader` and `RecordingAhead`, which read recordings from files and pipes. They come with the feature
//! `std`, which is on by default; without it the package needs `core` alone.
#![no_std]
#![warn(missing_docs)]

#[cfg(feature = "std")]
extern crate std;

#[cfg(feature = "std")]
mod ahead;
mod calls;
mod forms;
mod layout;
mod recording;
mod refusal;
mod sheet;
#[cfg(feature = "std")]
mod stream;

#[cfg(feature = "std")]
pub use ahead::RecordingAhead;
pub use calls::{mode_system, read, sheet_bound, write, Accepted, Edition, System, Written, LONGEST_PACKET, LONGEST_SHEET};
pub use forms::{Ba16, Ba32, Form, Sa16, Sa32, Value, B16, B32, H32};
pub use layout::{segment_name, Field, Kind, Presence};
pub use recording::{Found, Reason, Recording};
pub use refusal::{Refusal, Row};
pub use sheet::{Dwell, Header, Hrr, Job, Location, Mission, Opaque, Piece, Record, Records, Scatterer, Sheet, Target, Test, Text};
#[cfg(feature = "std")]
pub use stream::RecordingReader;
