//! A negotiation of participants without a script.
use crate::asked::{FlatParticipants, FlatPlatform};
use crate::{Error, Format, Layout, Participant, Platform, Settings};
use mezulobu_sys as sys;
use std::mem::{size_of, zeroed};

/// Settings to be written. All zeros are such, since each member is a number or an array of those.
pub(crate) fn no_settings() -> sys::mezulobu_settings {
    // Safety: see above.
    let mut settings: sys::mezulobu_settings = unsafe { zeroed() };
    settings.struct_size = size_of::<sys::mezulobu_settings>();
    settings
}

/// A refusal to be written.
pub(crate) fn no_refusal() -> sys::mezulobu_refusal {
    // Safety: as of settings.
    let mut refusal: sys::mezulobu_refusal = unsafe { zeroed() };
    refusal.struct_size = size_of::<sys::mezulobu_refusal>();
    refusal
}

/// The best settings for participants on a platform. Their order is a ranking: those that can be
/// done without stand last.
pub fn negotiate(platform: &Platform, participants: &[Participant]) -> Result<Settings, Error> {
    let platform = FlatPlatform::of(platform);
    let participants = FlatParticipants::of(participants);
    let (mut settings, mut why) = (no_settings(), no_refusal());
    // Safety: each pointer is of a struct or a list that lives, and each size is its own.
    let status = unsafe {
        sys::mezulobu_negotiate(
            &platform.flat,
            participants.flat.as_ptr(),
            participants.flat.len(),
            &mut settings,
            &mut why,
        )
    };
    match status {
        sys::MEZULOBU_DONE => Ok(Settings::of(&settings)),
        _ => Err(Error::of(status, &why)),
    }
}

/// The layout of an image whose first plane has rows of `pitch` bytes, its height in pixels: `None`
/// where there is no such format or modifier here, where tiles don't go with the format, or where
/// the bytes don't fit 64 bits. It demands a pitch and a height as settings have them.
pub fn planes(format: Format, modifier: u64, pitch: u32, height: u32) -> Option<Layout> {
    // Safety: all zeros are a layout without planes.
    let mut layout = unsafe { zeroed() };
    // Safety: the layout lives.
    let status = unsafe { sys::mezulobu_planes(format.0, modifier, pitch, height, &mut layout) };
    (status == sys::MEZULOBU_DONE).then(|| Layout::of(&layout))
}
