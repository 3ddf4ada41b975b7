//! Buffers that camera, codec, GPU and display drivers share: how many, in which memory, and holding
//! which image. A platform says what there is, each participant what it takes, and the library chooses
//! the best settings that all of them allow, or says who is in the way, and in which field.
//!
//! ```
//! use mezulobu::{negotiate, Color, Entry, Format, Heap, Pair, Participant, Platform, Size, Usage};
//!
//! let nv12 = Format::new(*b"NV12");
//! let platform = Platform {
//!     heaps: vec![Heap { cpu: true, ram: true, ..Heap::default() }],
//!     pairs: vec![Pair::linear(nv12)],
//!     colors: vec![Color::REC709],
//! };
//! let entry = Entry { min_size: Size::new(1280, 720), ..Entry::new(nv12, Color::REC709) };
//! let camera = Participant { camping: 3, entries: vec![entry], ..Participant::new(Usage::VIDEO) };
//! let settings = negotiate(&platform, &[camera])?;
//! assert_eq!((settings.count, settings.bytes), (3, 1280 * 720 * 3 / 2));
//! # Ok::<(), mezulobu::Error>(())
//! ```
//!
//! [`live`] has the same negotiation while it goes on: handles of participants, each on its thread.
//!
//! Any thread may call at any time. No call prints, ends the process, or touches a file by name or the
//! environment.
#![warn(missing_debug_implementations)]

mod asked;
mod chosen;
mod code;
mod codes;
pub mod live;
mod negotiation;
mod texts;
mod waiting;

pub use asked::{Entry, Format, Heap, Pair, Participant, Platform, Size};
pub use chosen::{Amiss, Conflict, Error, Image, Layout, Plane, Settings, Whose};
pub use codes::{Coherency, Color, Field, Kind, Status, Usage};
pub use negotiation::{negotiate, planes};
pub use texts::{
    check, explain, explain_json, run, run_with_certificate, Answer, Explanation, Outcome,
    ScriptError,
};

use mezulobu_sys as sys;
use std::ffi::{CStr, CString};
use std::fmt;
use std::os::raw::c_char;

/// The version of the library: major and minor number.
pub fn version() -> (u16, u16) {
    // Safety: it takes nothing.
    let version = unsafe { sys::mezulobu_version() };
    ((version >> 16) as u16, version as u16)
}

/// A name that the library tells.
///
/// # Safety
/// It ends with a 0 and is never freed.
unsafe fn name_of(name: *const c_char) -> &'static str {
    CStr::from_ptr(name).to_str().unwrap_or("?")
}

impl Field {
    /// The name of the field in a script's records, as `max_size`.
    pub fn name(self) -> &'static str {
        // Safety: the library's names are its constants.
        unsafe { name_of(sys::mezulobu_field_name(self.0)) }
    }
}

impl fmt::Display for Field {
    fn fmt(&self, f: &mut fmt::Formatter<'_>) -> fmt::Result {
        f.write_str(self.name())
    }
}

impl Status {
    /// The name of the status, as `TOO_SMALL`.
    pub fn name(self) -> &'static str {
        // Safety: as of a field's.
        unsafe { name_of(sys::mezulobu_status_name(self.0)) }
    }

    /// What the status means, as `E9 Pending: nothing is decided yet; explain says who is awaited`.
    pub fn meaning(self) -> &'static str {
        self.meaning_of("")
    }

    /// The same of a call, as `set_name`, with what would be right there.
    pub(crate) fn meaning_of(self, call: &'static str) -> &'static str {
        let call = CString::new(call).unwrap_or_default();
        // Safety: as of a field's, and the call's name lives.
        unsafe { name_of(sys::mezulobu_status_text(self.0, call.as_ptr())) }
    }
}

impl fmt::Display for Status {
    fn fmt(&self, f: &mut fmt::Formatter<'_>) -> fmt::Result {
        f.write_str(self.name())
    }
}

impl std::error::Error for Status {}
