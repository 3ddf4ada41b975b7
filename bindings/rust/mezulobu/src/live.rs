//! Collections that live: handles on the nodes of one collection, each on whatever thread.
//!
//! ```
//! use mezulobu::live::Allocator;
//! use mezulobu::{Color, Entry, Format, Heap, Pair, Participant, Platform, Size, Usage};
//!
//! let nv12 = Format::new(*b"NV12");
//! let heaps = vec![Heap { cpu: true, ram: true, ..Heap::default() }];
//! let platform = Platform { heaps, pairs: vec![Pair::linear(nv12)], colors: vec![Color::REC709] };
//! let entry = Entry { min_size: Size::new(1920, 1080), ..Entry::new(nv12, Color::REC709) };
//! let asked = Participant { camping: 3, entries: vec![entry], ..Participant::new(Usage::VIDEO) };
//! let root = Allocator::new(&platform)?.allocate_shared()?;
//! let seats = [root.duplicate()?, root.duplicate()?];
//! root.release()?;
//! std::thread::scope(|threads| {
//!     for seat in seats {
//!         threads.spawn(|| {
//!             let mine = seat.bind().unwrap().set_constraints(Some(&asked)).unwrap();
//!             let settings = mine.wait(None).unwrap().unwrap();
//!             assert_eq!((settings.count, settings.bytes), (6, 1920 * 1080 * 3 / 2));
//!             mine.release().unwrap();
//!         });
//!     }
//! });
//! # Ok::<(), Box<dyn std::error::Error>>(())
//! ```
use crate::asked::{FlatParticipants, FlatPlatform};
use crate::chosen::{Amiss, Conflict};
use crate::negotiation::{no_refusal, no_settings};
use crate::texts::{filled, text_of};
use crate::waiting::waited;
use crate::{name_of, Error, Kind, Participant, Platform, Settings, Status};
use mezulobu_sys as sys;
use std::ffi::CString;
use std::fmt;
use std::marker::PhantomData;
use std::mem::ManuallyDrop;
use std::os::raw::c_int;
use std::os::unix::io::BorrowedFd;
use std::ptr::{null, null_mut};
use std::time::Duration;

/// A call that would have spent a handle and is refused: the handle is as it was.
#[derive(Debug)]
pub struct Refused<T> {
    pub handle: T,
    pub error: CallRefused,
}

/// A call that is refused, and changes nothing.
#[derive(Clone, Debug, PartialEq, Eq)]
pub struct CallRefused {
    /// The call, as `bind`.
    pub call: &'static str,
    /// The name of the node on which it is made; `None` of an allocator's call, and without memory for
    /// the name.
    pub node: Option<String>,
    pub why: Why,
}

/// Why a call is refused.
#[derive(Clone, Debug, PartialEq, Eq)]
pub enum Why {
    /// By what the collection is, or for want of memory.
    Status(Status),
    /// What the participant states can't be meant.
    Stated(Amiss),
    /// The record has this fault.
    Record(Fault),
}

/// The fault of a record.
#[derive(Clone, Debug, PartialEq, Eq)]
pub struct Fault {
    /// 1 is S1 and so on, and 0 no JSON.
    pub number: u32,
    /// What it is, where, and what would be right; without memory for that its name alone.
    pub text: String,
}

impl Fault {
    fn of(kind: Kind, record: &[u8], number: u32) -> Self {
        // Safety: the record lives, and so do the text and its size.
        let (status, [text]) = filled(|[text], [size]| unsafe {
            sys::mezulobu_record_fault(
                kind.number(),
                record.as_ptr().cast(),
                record.len(),
                text.as_mut_ptr().cast(),
                size,
            )
        });
        let mut fault = Self {
            number,
            text: text_of(&text).trim_end().to_owned(),
        };
        if status != sys::MEZULOBU_DONE {
            fault.text = fault.name().to_owned();
        }
        fault
    }

    /// The name of the fault, as `S5 BadUsage`.
    pub fn name(&self) -> &'static str {
        // Safety: the library's names are its constants.
        unsafe { name_of(sys::mezulobu_fault_name(self.number)) }
    }
}

impl fmt::Display for Fault {
    fn fmt(&self, f: &mut fmt::Formatter<'_>) -> fmt::Result {
        f.write_str(&self.text)
    }
}

impl CallRefused {
    /// The status of the call.
    pub fn status(&self) -> Status {
        match self.why {
            Why::Status(status) => status,
            Why::Stated(_) | Why::Record(_) => Status::REFUSED,
        }
    }
}

impl fmt::Display for CallRefused {
    fn fmt(&self, f: &mut fmt::Formatter<'_>) -> fmt::Result {
        f.write_str(self.call)?;
        if let Some(node) = &self.node {
            write!(f, " of {node}")?;
        }
        f.write_str(": ")?;
        match &self.why {
            Why::Status(status) => f.write_str(status.meaning_of(self.call)),
            Why::Stated(amiss) => {
                f.write_str("the participant: ")?;
                amiss.write_field(f)
            }
            Why::Record(fault) => fault.fmt(f),
        }
    }
}

impl std::error::Error for CallRefused {}

impl<T> fmt::Display for Refused<T> {
    fn fmt(&self, f: &mut fmt::Formatter<'_>) -> fmt::Result {
        self.error.fmt(f)
    }
}

impl<T: fmt::Debug> std::error::Error for Refused<T> {}

fn done(status: c_int) -> Result<(), Why> {
    match status {
        sys::MEZULOBU_DONE => Ok(()),
        other => Err(Why::Status(Status(other))),
    }
}

/// An allocator's call that is refused.
fn of_allocator(call: &'static str, why: Why) -> CallRefused {
    CallRefused {
        call,
        node: None,
        why,
    }
}

/// A handle's text of a name; `REFUSED` where a 0 is in it.
fn c_name(name: &str) -> Result<CString, Why> {
    CString::new(name).map_err(|_| Why::Status(Status::REFUSED))
}

/// Makes collections, which are decided for one platform.
#[derive(Debug)]
pub struct Allocator(*mut sys::mezulobu_allocator);

// Safety: any thread may make any call, and what is freed is in no other call, since it is owned then.
unsafe impl Send for Allocator {}
unsafe impl Sync for Allocator {}

impl Allocator {
    pub fn new(platform: &Platform) -> Result<Self, Error> {
        let platform = FlatPlatform::of(platform);
        let (mut made, mut why) = (null_mut(), no_refusal());
        // Safety: each pointer is of what lives.
        let status = unsafe { sys::mezulobu_allocator_new(&platform.flat, &mut made, &mut why) };
        match status {
            sys::MEZULOBU_DONE => Ok(Self(made)),
            _ => Err(Error::of(status, &why)),
        }
    }

    /// From the JSON of a platform, as scripts have it.
    pub fn from_record(record: &[u8]) -> Result<Self, CallRefused> {
        let (mut made, mut code) = (null_mut(), 0);
        // Safety: each pointer is of what lives.
        let status = unsafe {
            sys::mezulobu_allocator_new_record(
                record.as_ptr().cast(),
                record.len(),
                &mut made,
                &mut code,
            )
        };
        let why = match status {
            sys::MEZULOBU_DONE => return Ok(Self(made)),
            sys::MEZULOBU_REFUSED => Why::Record(Fault::of(Kind::PLATFORM, record, code)),
            other => Why::Status(Status(other)),
        };
        Err(of_allocator("from_record", why))
    }

    /// A new collection, by the token of its root. It lives on without the allocator.
    pub fn allocate_shared(&self) -> Result<Token, CallRefused> {
        let mut made = null_mut();
        // Safety: the allocator lives.
        done(unsafe { sys::mezulobu_allocate_shared(self.0, &mut made) })
            .map_err(|why| of_allocator("allocate_shared", why))?;
        Ok(Token(made))
    }

    /// The same for a host that lets strangers in: each child of the root has at most so many nodes
    /// below it, whoever makes them, those that are gone included.
    pub fn allocate_shared_limited(&self, most: u32) -> Result<Token, CallRefused> {
        let mut made = null_mut();
        // Safety: the allocator lives.
        done(unsafe { sys::mezulobu_allocate_shared_limited(self.0, most, &mut made) })
            .map_err(|why| of_allocator("allocate_shared_limited", why))?;
        Ok(Token(made))
    }
}

impl Drop for Allocator {
    fn drop(&mut self) {
        // Safety: it isn't used afterwards.
        unsafe { sys::mezulobu_allocator_free(self.0) }
    }
}

/// What handles have in common: who drops one closes its node, and its domain fails if it wasn't
/// ready yet. So a driver that ends early keeps nobody waiting.
macro_rules! handle {
    ($name:ident$(<$state:ident>)? of $kind:ident: $close:ident, $set_name:ident, $own_name:ident) => {
        // Safety: any thread may make any call, and at once on one handle, but for a call that spends it: that
        // one owns it here.
        unsafe impl$(<$state: Send>)? Send for $name$(<$state>)? {}
        unsafe impl$(<$state: Sync>)? Sync for $name$(<$state>)? {}

        impl$(<$state>)? $name$(<$state>)? {
            /// Closes the node; its domain fails if it wasn't ready yet. Dropping does the same.
            pub fn close(self) {}

            /// Names the node, in scripts and explanations: 1 to 32 letters, digits, `_` or `-`, but for `root`,
            /// `n` with digits, and what another node of the collection has.
            ///
            /// # Errors
            /// `REFUSED` of another name, `NO` where another node has it, `MISUSED` of the first node, which is `root`;
            /// `NO_MEMORY`.
            pub fn set_name(&self, name: &str) -> Result<(), CallRefused> {
                // Safety: the handle lives, and the name ends with a 0.
                let set = c_name(name).and_then(|name| done(unsafe { sys::$set_name(self.at(), name.as_ptr()) }));
                set.map_err(|why| self.refused("set_name", why))
            }

            /// The name of the node: what `set_name` gave it, else `root`, or `n` with its number; `None` without memory
            /// for it.
            pub fn name(&self) -> Option<String> {
                // Safety: the handle lives, and so do the name and its size.
                let (status, [name]) =
                    filled(|[name], [size]| unsafe { sys::$own_name(self.at(), name.as_mut_ptr().cast(), size) });
                (status == sys::MEZULOBU_DONE).then(|| text_of(&name))
            }

            /// A call on this handle that is refused.
            fn refused(&self, call: &'static str, why: Why) -> CallRefused {
                CallRefused {
                    call,
                    node: self.name(),
                    why,
                }
            }

            /// What a status of a call on this handle says.
            fn done(&self, call: &'static str, status: c_int) -> Result<(), CallRefused> {
                done(status).map_err(|why| self.refused(call, why))
            }

            /// Calls what spends the handle where it is done.
            fn spent(self, name: &'static str, call: impl FnOnce(*mut *mut sys::$kind) -> c_int) -> Result<(), Refused<Self>> {
                let mut kept = ManuallyDrop::new(self);
                let status = call(kept.at_mut());
                done(status).map_err(|why| ManuallyDrop::into_inner(kept).kept(name, why))
            }

            /// This handle, which a call that is refused leaves.
            fn kept(self, call: &'static str, why: Why) -> Refused<Self> {
                Refused {
                    error: self.refused(call, why),
                    handle: self,
                }
            }
        }

        impl$(<$state>)? Drop for $name$(<$state>)? {
            fn drop(&mut self) {
                // Safety: it isn't used afterwards. A close is refused of nothing that is open.
                let _closed = unsafe { sys::$close(self.at_mut()) };
            }
        }

        impl$(<$state>)? fmt::Debug for $name$(<$state>)? {
            fn fmt(&self, f: &mut fmt::Formatter<'_>) -> fmt::Result {
                f.debug_tuple(stringify!($name)).field(&self.at()).finish()
            }
        }
    };
}

/// The right to take part: an open token.
pub struct Token(*mut sys::mezulobu_token);

handle!(Token of mezulobu_token: mezulobu_token_close, mezulobu_token_set_name, mezulobu_token_name);

impl Token {
    fn at(&self) -> *mut sys::mezulobu_token {
        self.0
    }

    fn at_mut(&mut self) -> *mut *mut sys::mezulobu_token {
        &mut self.0
    }

    /// A further token, below this one.
    pub fn duplicate(&self) -> Result<Token, CallRefused> {
        let mut made = null_mut();
        // Safety: the handle lives.
        self.done("duplicate", unsafe {
            sys::mezulobu_token_duplicate(self.0, &mut made)
        })?;
        Ok(Token(made))
    }

    /// A group of alternatives, below this token.
    pub fn create_group(&self) -> Result<Group, CallRefused> {
        let mut made = null_mut();
        // Safety: the handle lives.
        self.done("create_group", unsafe {
            sys::mezulobu_token_create_group(self.0, &mut made)
        })?;
        Ok(Group(made, PhantomData))
    }

    /// Takes part: the token becomes a collection.
    pub fn bind(self) -> Result<Collection, Refused<Self>> {
        let mut made = null_mut();
        // Safety: the handle lives, and is spent where it is done.
        self.spent("bind", |at| unsafe {
            sys::mezulobu_token_bind(at, &mut made)
        })?;
        Ok(Collection(made, PhantomData))
    }

    /// Gives the token up, without harm to the others.
    pub fn release(self) -> Result<(), Refused<Self>> {
        // Safety: as of `bind`.
        self.spent("release", |at| unsafe { sys::mezulobu_token_release(at) })
    }
}

/// The state of a group that gets children.
#[derive(Debug)]
pub struct Open;

/// The state of a group whose children are all there.
#[derive(Debug)]
pub struct Complete;

/// Alternatives, of which one is selected.
pub struct Group<S = Open>(*mut sys::mezulobu_group, PhantomData<S>);

handle!(Group<S> of mezulobu_group: mezulobu_group_close, mezulobu_group_set_name, mezulobu_group_name);

impl<S> Group<S> {
    fn at(&self) -> *mut sys::mezulobu_group {
        self.0
    }

    fn at_mut(&mut self) -> *mut *mut sys::mezulobu_group {
        &mut self.0
    }
}

impl Group {
    /// The next alternative: of two that can be had, the one that was made first is selected.
    pub fn create_child(&self) -> Result<Token, CallRefused> {
        let mut made = null_mut();
        // Safety: the handle lives.
        self.done("create_child", unsafe {
            sys::mezulobu_group_create_child(self.0, &mut made)
        })?;
        Ok(Token(made))
    }

    /// There are no further children.
    ///
    /// # Errors
    /// `NO_CHILDREN` of a group without a child, and what the collection refuses.
    pub fn all_children_present(self) -> Result<Group<Complete>, Refused<Self>> {
        // Safety: the handle lives, and isn't spent.
        match done(unsafe { sys::mezulobu_group_all_children_present(self.0) }) {
            Ok(()) => Ok(Group(ManuallyDrop::new(self).0, PhantomData)),
            Err(why) => Err(self.kept("all_children_present", why)),
        }
    }
}

impl Group<Complete> {
    /// Gives the group up, without harm to the others: its children stay.
    pub fn release(self) -> Result<(), Refused<Self>> {
        // Safety: as of a token's.
        self.spent("release", |at| unsafe { sys::mezulobu_group_release(at) })
    }
}

/// The state of a collection that hasn't said what it asks for.
#[derive(Debug)]
pub struct Unset;

/// The state of a collection that has said what it asks for.
#[derive(Debug)]
pub struct Set;

/// A participant.
pub struct Collection<S = Unset>(*mut sys::mezulobu_collection, PhantomData<S>);

handle!(Collection<S> of mezulobu_collection: mezulobu_collection_close, mezulobu_collection_set_name, mezulobu_collection_name);

impl Collection {
    fn set(
        self,
        call: &'static str,
        status: c_int,
        why: impl FnOnce() -> Why,
    ) -> Result<Collection<Set>, Refused<Self>> {
        let why = match status {
            sys::MEZULOBU_DONE => return Ok(Collection(ManuallyDrop::new(self).0, PhantomData)),
            sys::MEZULOBU_REFUSED => why(),
            other => Why::Status(Status(other)),
        };
        Err(self.kept(call, why))
    }

    /// Says what the participant asks for: `None` for nothing.
    pub fn set_constraints(
        self,
        asked: Option<&Participant>,
    ) -> Result<Collection<Set>, Refused<Self>> {
        let asked = asked.map(|it| FlatParticipants::of(std::slice::from_ref(it)));
        let at = asked.as_ref().map_or(null(), |it| it.flat.as_ptr());
        let mut why = no_refusal();
        // Safety: the handle lives, and so do what is asked and the refusal.
        let status = unsafe { sys::mezulobu_collection_set_constraints(self.0, at, &mut why) };
        self.set("set_constraints", status, || Why::Stated(Amiss::of(&why)))
    }

    /// The same by the JSON of constraints, as scripts have it.
    pub fn set_constraints_record(self, record: &[u8]) -> Result<Collection<Set>, Refused<Self>> {
        let mut code = 0;
        // Safety: as above.
        let status = unsafe {
            sys::mezulobu_collection_set_constraints_record(
                self.0,
                record.as_ptr().cast(),
                record.len(),
                &mut code,
            )
        };
        self.set("set_constraints_record", status, || {
            Why::Record(Fault::of(Kind::PARTICIPANT, record, code))
        })
    }
}

impl<S> Collection<S> {
    fn at(&self) -> *mut sys::mezulobu_collection {
        self.0
    }

    fn at_mut(&mut self) -> *mut *mut sys::mezulobu_collection {
        &mut self.0
    }

    /// A token for a participant who comes later.
    pub fn attach_token(&self) -> Result<Token, CallRefused> {
        let mut made = null_mut();
        // Safety: the handle lives.
        self.done("attach_token", unsafe {
            sys::mezulobu_collection_attach_token(self.0, &mut made)
        })?;
        Ok(Token(made))
    }

    /// Gives the collection up, without harm to the others: what it asked for stays in force.
    pub fn release(self) -> Result<(), Refused<Self>> {
        // Safety: as of a token's.
        self.spent("release", |at| unsafe {
            sys::mezulobu_collection_release(at)
        })
    }

    /// What was decided: `None` where nothing is yet.
    ///
    /// # Errors
    /// Why there are no settings, which stays so.
    pub fn check(&self) -> Result<Option<Settings>, CallRefused> {
        let mut settings = no_settings();
        // Safety: the handle lives, and so do the settings.
        let status = unsafe { sys::mezulobu_collection_check(self.0, &mut settings) };
        decided(status, sys::MEZULOBU_PENDING, &settings).map_err(|why| self.refused("check", why))
    }

    /// The same as soon as it is decided: `None` where it isn't within a time, however long. Without one
    /// it waits as long as it takes.
    ///
    /// # Errors
    /// As of `check`.
    pub fn wait(&self, time: Option<Duration>) -> Result<Option<Settings>, CallRefused> {
        let mut settings = no_settings();
        // Safety: as of `check`.
        let status = waited(time, |milliseconds| unsafe {
            sys::mezulobu_collection_wait(self.0, milliseconds, &mut settings)
        });
        decided(status, sys::MEZULOBU_NO, &settings).map_err(|why| self.refused("wait", why))
    }

    /// A file descriptor that polls as readable as soon as `check` isn't `None`, and stays so; `None` where the
    /// system gives none. Don't read or write it.
    pub fn descriptor(&self) -> Option<BorrowedFd<'_>> {
        // Safety: the handle lives, and the descriptor as long as it does.
        let fd = unsafe { sys::mezulobu_collection_fd(self.0) };
        (fd >= 0).then(|| unsafe { BorrowedFd::borrow_raw(fd) })
    }

    /// The number of the node: 0 is the first token of all, and each call that makes one takes the next.
    pub fn node(&self) -> u32 {
        let mut node = 0;
        // Safety: the handle lives. It isn't refused.
        let _done = unsafe { sys::mezulobu_collection_node(self.0, &mut node) };
        node
    }

    /// The name of the node of a number.
    ///
    /// # Errors
    /// `MISUSED` where there is no such node; `NO_MEMORY`.
    pub fn name_of(&self, node: u32) -> Result<String, CallRefused> {
        // Safety: the handle lives, and so do the name and its size.
        self.text("name_of", |at, size| unsafe {
            sys::mezulobu_collection_name_of(self.0, node, at.cast(), size)
        })
    }

    /// Which alternatives were chosen: of each group that is selected itself, in the order of the tree,
    /// the number of its child, counted from 0.
    pub fn selection(&self) -> Result<Vec<u8>, CallRefused> {
        // Safety: the handle lives, and so do the choices and their number.
        let (status, [choices]) = filled(|[choices], [size]| unsafe {
            sys::mezulobu_collection_selection(self.0, choices.as_mut_ptr(), size)
        });
        self.done("selection", status).map(|()| choices)
    }

    /// Who is in the way, where `check` is refused by `INTERSECTION_EMPTY` in a domain without groups that isn't
    /// attached: `who` is the number of a node then. `None` where it isn't so: `explain` tells more.
    pub fn refusal(&self) -> Result<Option<Conflict>, CallRefused> {
        let mut why = no_refusal();
        // Safety: the handle lives, and so does the refusal.
        match unsafe { sys::mezulobu_collection_refusal(self.0, &mut why) } {
            sys::MEZULOBU_DONE => Ok(Some(Conflict::of(&why, true))),
            sys::MEZULOBU_NO => Ok(None),
            other => Err(self.refused("refusal", Why::Status(Status(other)))),
        }
    }

    /// All calls of the whole collection that were done so far, as a script.
    ///
    /// # Errors
    /// `REFUSED` where there is none, since it would be longer than a script may be; `NO_MEMORY`. So too of
    /// what follows.
    pub fn script(&self) -> Result<String, CallRefused> {
        // Safety: the handle lives, and so do the text and its size.
        self.text("script", |at, size| unsafe {
            sys::mezulobu_collection_script(self.0, at.cast(), size, null_mut(), null_mut())
        })
    }

    /// The same, and what proves its decisions. Both are of one moment.
    pub fn script_with_certificate(&self) -> Result<(String, Vec<u8>), CallRefused> {
        // Safety: as of `script`.
        let (status, [text, proof]) = filled(|[text, proof], [size, proof_size]| unsafe {
            sys::mezulobu_collection_script(
                self.0,
                text.as_mut_ptr().cast(),
                size,
                proof.as_mut_ptr().cast(),
                proof_size,
            )
        });
        self.done("script", status)
            .map(|()| (text_of(&text), proof))
    }

    /// The explanation of the script: who is awaited, what decided each value, who is in the way and which
    /// changes help.
    pub fn explain(&self) -> Result<String, CallRefused> {
        // Safety: as of `script`.
        self.text("explain", |at, size| unsafe {
            sys::mezulobu_collection_explain(self.0, at.cast(), size)
        })
    }

    /// The same as objects of JSON, one a line.
    pub fn explain_json(&self) -> Result<String, CallRefused> {
        // Safety: as of `script`.
        self.text("explain_json", |at, size| unsafe {
            sys::mezulobu_collection_explain_json(self.0, at.cast(), size)
        })
    }

    fn text(
        &self,
        name: &'static str,
        call: impl Fn(*mut u8, &mut usize) -> c_int,
    ) -> Result<String, CallRefused> {
        let (status, [text]) = filled(|[text], [size]| call(text.as_mut_ptr(), size));
        self.done(name, status).map(|()| text_of(&text))
    }
}

/// The settings at DONE; none at the status that says that nothing is decided.
fn decided(
    status: c_int,
    none: c_int,
    settings: &sys::mezulobu_settings,
) -> Result<Option<Settings>, Why> {
    match status {
        sys::MEZULOBU_DONE => Ok(Some(Settings::of(settings))),
        other if other == none => Ok(None),
        other => Err(Why::Status(Status(other))),
    }
}
