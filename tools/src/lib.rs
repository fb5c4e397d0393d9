//! Two tools for a person at a bench, which know no rule of the supervisor: `scenario` makes traces, `timeline` draws listings.
//!
//! A frame's bytes, a provisioning and the records of a trace are written by the second program's code.

use second::{frame, provisioning, reader};

pub mod listing;
pub mod program;
pub mod scenario;
pub mod timeline;
