//! What the library answers: settings, and why there are none.
use crate::{Coherency, Color, Field, Format, Kind};
use mezulobu_sys as sys;
use std::fmt;

/// A plane of an image.
#[derive(Clone, Copy, Debug, PartialEq, Eq)]
pub struct Plane {
    /// From the buffer's start to the first row, in bytes.
    pub offset: u64,
    /// How many rows, with what a tile adds.
    pub rows: u64,
    /// The bytes of a row.
    pub pitch: u32,
}

/// Where an image lies in a buffer, as a dma-buf is imported.
#[derive(Clone, Debug, PartialEq, Eq)]
pub struct Layout {
    /// Of the whole image: no plane ends after them.
    pub bytes: u64,
    /// In the order of DRM.
    pub planes: Vec<Plane>,
}

impl Layout {
    pub(crate) fn of(flat: &sys::mezulobu_layout) -> Self {
        let planes = flat.planes.iter().take(flat.n_planes as usize);
        let plane = |it: &sys::mezulobu_plane| Plane {
            offset: it.offset,
            rows: it.rows,
            pitch: it.pitch,
        };
        Self {
            bytes: flat.bytes,
            planes: planes.map(plane).collect(),
        }
    }
}

/// The smallest image that everybody allows.
#[derive(Clone, Debug, PartialEq, Eq)]
pub struct Image {
    pub format: Format,
    pub modifier: u64,
    pub color: Color,
    pub width: u32,
    pub height: u32,
    pub layout: Layout,
}

/// What all share.
#[derive(Clone, Debug, PartialEq, Eq)]
pub struct Settings {
    /// How many buffers: 1 to 128.
    pub count: u32,
    /// The size of each, at least 1.
    pub bytes: u64,
    /// The index on the platform.
    pub heap: usize,
    pub coherency: Coherency,
    /// `None` where the buffers hold no image.
    pub image: Option<Image>,
}

impl Settings {
    pub(crate) fn of(flat: &sys::mezulobu_settings) -> Self {
        let it = &flat.image;
        let image = (it.format != 0).then(|| Image {
            format: Format(it.format),
            modifier: it.modifier,
            color: Color(it.color),
            width: it.width,
            height: it.height,
            layout: Layout::of(&it.layout),
        });
        Self {
            count: flat.count,
            bytes: flat.bytes,
            heap: flat.heap,
            coherency: Coherency(flat.coherency),
            image,
        }
    }
}

/// Who states what nobody can mean.
#[derive(Clone, Copy, Debug, PartialEq, Eq)]
pub enum Whose {
    Platform,
    /// The participant with this index.
    Participant(usize),
    /// The list has more than 1,024 participants.
    List,
}

/// Why what is stated is refused.
#[derive(Clone, Debug, PartialEq, Eq)]
pub struct Amiss {
    pub whose: Whose,
    pub field: Field,
    /// The item of its list.
    pub index: usize,
}

/// Why there are no settings. The participants before `who` can share some, and those up to it
/// can't.
#[derive(Clone, Debug, PartialEq, Eq)]
pub struct Conflict {
    /// [`Kind::COUNT`], [`Kind::PLACES`] or [`Kind::OFFERS`].
    pub kind: Kind,
    /// The participant's index, and of a live collection the number of its node; `None` where all can
    /// share settings but for a name of the image that nobody gives.
    pub who: Option<usize>,
    /// Whether `who` is the number of a node.
    pub is_node: bool,
    pub field: Field,
    /// Whether `who` gets nothing even by itself.
    pub alone: bool,
    /// The heap and the coherency domain that those before would share first.
    pub place: Option<(usize, Coherency)>,
    /// The image that those before would share first, or of [`Kind::OFFERS`] the one of `field`.
    pub offer: Option<(Format, u64, Color)>,
}

/// Why a negotiation has no settings.
#[derive(Clone, Debug, PartialEq, Eq)]
pub enum Error {
    /// What is stated can't be meant.
    Refused(Amiss),
    /// No settings meet everybody.
    NoSettings(Conflict),
    /// Memory was refused.
    NoMemory,
    /// The library doesn't know these structs: it is of another version than this crate.
    OtherVersion,
}

impl Error {
    /// What a status that isn't `DONE` says, with its refusal.
    pub(crate) fn of(status: i32, why: &sys::mezulobu_refusal) -> Self {
        match status {
            sys::MEZULOBU_NO => Self::NoSettings(Conflict::of(why, false)),
            sys::MEZULOBU_REFUSED => Self::Refused(Amiss::of(why)),
            sys::MEZULOBU_NO_MEMORY => Self::NoMemory,
            _ => Self::OtherVersion,
        }
    }
}

impl Amiss {
    pub(crate) fn of(why: &sys::mezulobu_refusal) -> Self {
        let whose = match Kind(why.kind) {
            Kind::PLATFORM => Whose::Platform,
            Kind::PARTICIPANT => Whose::Participant(why.who),
            _ => Whose::List,
        };
        Self {
            whose,
            field: Field(why.field),
            index: why.index,
        }
    }
}

impl Conflict {
    pub(crate) fn of(why: &sys::mezulobu_refusal, is_node: bool) -> Self {
        let place = (why.heap, Coherency(why.coherency));
        let offer = (Format(why.format), why.modifier, Color(why.color));
        Self {
            kind: Kind(why.kind),
            who: (why.who != sys::MEZULOBU_NOBODY).then_some(why.who),
            is_node,
            field: Field(why.field),
            alone: why.alone != 0,
            place: (why.coherency != 0).then_some(place),
            offer: (why.format != 0).then_some(offer),
        }
    }
}

impl Amiss {
    /// The field, and of one in a list which item it is of. The fields that a participant has itself
    /// come first.
    pub(crate) fn write_field(&self, f: &mut fmt::Formatter<'_>) -> fmt::Result {
        if self.field < Field::PERMITTED_HEAPS {
            write!(f, "{}", self.field)
        } else {
            write!(f, "{} (item {})", self.field, self.index)
        }
    }
}

impl fmt::Display for Amiss {
    fn fmt(&self, f: &mut fmt::Formatter<'_>) -> fmt::Result {
        match self.whose {
            Whose::Platform => write!(f, "the platform's {} {}", self.field, self.index),
            Whose::Participant(who) => {
                write!(f, "participant {who}: ")?;
                self.write_field(f)
            }
            Whose::List => f.write_str("more than 1,024 participants"),
        }
    }
}

impl fmt::Display for Conflict {
    fn fmt(&self, f: &mut fmt::Formatter<'_>) -> fmt::Result {
        match self.who {
            Some(who) => {
                let kind = if self.is_node { "node" } else { "participant" };
                write!(f, "{kind} {who} is in the way by {}", self.field)?;
            }
            None => write!(f, "nobody gives {}", self.field)?,
        }
        f.write_str(if self.alone { ", even alone" } else { "" })
    }
}

impl fmt::Display for Error {
    fn fmt(&self, f: &mut fmt::Formatter<'_>) -> fmt::Result {
        match self {
            Self::Refused(amiss) => write!(f, "refused: {amiss}"),
            Self::NoSettings(conflict) => write!(f, "no settings: {conflict}"),
            Self::NoMemory => f.write_str("no memory"),
            Self::OtherVersion => f.write_str("libmezulobu is of another version"),
        }
    }
}

impl std::error::Error for Error {}
