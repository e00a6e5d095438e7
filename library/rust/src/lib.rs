//! The proved core of a smart-home hub, stepped from outside.
//!
//! A [`Hub`] is a home. Open a window on it, take the runs of the window step by step, make the device calls that the steps
//! ask for, however late and in which order, and give the answers. There is no input, no output, no clock and no thread
//! inside. What a step does is proved; `library/README.md` says what of it.
//!
//! A [`LoggedHub`] is a home whose calls are kept in a file: after a kill it is made again, in the middle of a window.
//!
//! ```
//! use lazbendix::{Answer, Hub, Mode, Task, Turn};
//!
//! let script = br#"{"safehome": 1,
//!     "devices": [{"name": "lamp", "states": ["off", "on"], "start": "off"}],
//!     "routines": [{"name": "read", "commands": [{"on": "lamp", "do": "set", "to": "on"}]}],
//!     "windows": [{"at": "2021-04-26T08:10:00", "runs": [{"routine": "read"}]}]}"#;
//! let mut hub = Hub::open(script, Mode::default())?;
//! hub.window(0)?;
//! while hub.left()?.is_some() {
//!     if let Turn::Go(go) = hub.take(1, 0)? {
//!         assert_eq!(go.task, Task::Drive(1)); // here the lamp is switched on
//!         hub.give(go.device, go.ticket, Answer::Worked, 0)?;
//!     }
//! }
//! hub.close_window()?;
//! assert!(hub.record(false)?.ends_with("order 1\nhome lamp=on\n"));
//! # Ok::<(), lazbendix::Refused>(())
//! ```

#![deny(unsafe_code)]
#![warn(missing_docs)]

#[allow(unsafe_code)]
mod calls;
mod hubs;
mod log_files;
mod logged_hubs;
mod sums;
mod told;

pub use hubs::{version, Hub};
pub use log_files::{LogError, LogFault};
pub use logged_hubs::{LetOut, LoggedHub, Report};
pub use told::{
    Answer, Cause, Counts, Entry, Fault, FaultKind, Given, Go, Item, Left, Made, Mode, Part, Refused, Spot, Stand, Status,
    Task, Turn, What, Why,
};
