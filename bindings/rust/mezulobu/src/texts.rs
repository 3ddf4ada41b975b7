//! Scripts in, texts out.
use mezulobu_sys as sys;
use std::ffi::CString;
use std::fmt;
use std::os::raw::{c_char, c_int};
use std::ptr::null_mut;

/// The room of each text at first.
const ROOM: usize = 1 << 16;

/// Why a script has no report.
#[derive(Clone, Debug, PartialEq, Eq)]
pub enum ScriptError {
    /// The script or the certificate is refused, for this, as `script refused: Q4 at call 7`.
    Refused(String),
    /// Memory was refused, to all of it or to a decision.
    NoMemory,
}

impl fmt::Display for ScriptError {
    fn fmt(&self, f: &mut fmt::Formatter<'_>) -> fmt::Result {
        match self {
            Self::Refused(words) => f.write_str(words),
            Self::NoMemory => f.write_str("no memory"),
        }
    }
}

impl std::error::Error for ScriptError {}

/// What a check says of a certificate.
#[derive(Clone, Debug, PartialEq, Eq)]
pub struct Answer {
    pub is_right: bool,
    /// `yes N` and the end of a line, or `no Nk domain PATH`.
    pub text: String,
}

/// How a script went that is explained.
#[derive(Clone, Copy, Debug, PartialEq, Eq)]
pub enum Outcome {
    /// Each call was done, and each domain is chosen.
    AllWell,
    /// A call was refused, or a domain isn't chosen.
    NotAllWell,
    /// The script has a fault.
    Faulty,
}

/// What a script means.
#[derive(Clone, Debug, PartialEq, Eq)]
pub struct Explanation {
    pub outcome: Outcome,
    pub text: String,
}

/// Calls with room for N texts, and again with as much as they need. The library has said
/// `TOO_SMALL` then, and sizes that are no smaller.
pub(crate) fn filled<const N: usize>(
    mut call: impl FnMut(&mut [Vec<u8>; N], &mut [usize; N]) -> c_int,
) -> (c_int, [Vec<u8>; N]) {
    let mut texts = std::array::from_fn(|_| vec![0; ROOM]);
    loop {
        let mut sizes = std::array::from_fn(|i| texts[i].len());
        let status = call(&mut texts, &mut sizes);
        for (text, size) in texts.iter_mut().zip(sizes) {
            text.resize(size, 0);
        }
        if status != sys::MEZULOBU_TOO_SMALL {
            return (status, texts);
        }
    }
}

/// A text, which is UTF-8.
pub(crate) fn text_of(bytes: &[u8]) -> String {
    String::from_utf8_lossy(bytes).into_owned()
}

fn refused<T>(status: c_int, words: &[u8]) -> Result<T, ScriptError> {
    if status == sys::MEZULOBU_REFUSED {
        return Err(ScriptError::Refused(text_of(words)));
    }
    Err(ScriptError::NoMemory)
}

/// The report of a script, which is one JSON value.
pub fn run(script: &[u8]) -> Result<String, ScriptError> {
    let (status, [text]) = filled(|[text], [size]| {
        // Safety: each pointer is of bytes that live, with their number.
        unsafe {
            sys::mezulobu_run(
                script.as_ptr().cast(),
                script.len(),
                text.as_mut_ptr().cast(),
                size,
                null_mut(),
                null_mut(),
            )
        }
    });
    match status {
        sys::MEZULOBU_DONE => Ok(text_of(&text)),
        _ => refused(status, &text),
    }
}

/// The report of a script, and the certificate of its decisions.
pub fn run_with_certificate(script: &[u8]) -> Result<(String, Vec<u8>), ScriptError> {
    let (status, [text, certificate]) = filled(|[text, proof], [size, proof_size]| {
        // Safety: as of `run`.
        unsafe {
            sys::mezulobu_run(
                script.as_ptr().cast(),
                script.len(),
                text.as_mut_ptr().cast(),
                size,
                proof.as_mut_ptr().cast(),
                proof_size,
            )
        }
    });
    match status {
        sys::MEZULOBU_DONE => Ok((text_of(&text), certificate)),
        _ => refused(status, &text),
    }
}

/// Tests a certificate against a script.
pub fn check(script: &[u8], certificate: &[u8]) -> Result<Answer, ScriptError> {
    let (status, [text]) = filled(|[text], [size]| {
        // Safety: as of `run`.
        unsafe {
            sys::mezulobu_check(
                script.as_ptr().cast(),
                script.len(),
                certificate.as_ptr().cast(),
                certificate.len(),
                text.as_mut_ptr().cast(),
                size,
            )
        }
    });
    match status {
        sys::MEZULOBU_DONE | sys::MEZULOBU_NO => Ok(Answer {
            is_right: status == sys::MEZULOBU_DONE,
            text: text_of(&text),
        }),
        _ => refused(status, &text),
    }
}

type Explain = unsafe extern "C" fn(
    *const std::os::raw::c_void,
    usize,
    *const c_char,
    bool,
    *mut c_char,
    *mut usize,
) -> c_int;

fn explained(call: Explain, script: &[u8], file: &str) -> Result<Explanation, ScriptError> {
    let name = file
        .bytes()
        .take_while(|byte| *byte != 0)
        .collect::<Vec<_>>();
    let name = CString::new(name).unwrap_or_default();
    let (status, [text]) = filled(|[text], [size]| {
        // Safety: as of `run`, and the name ends with a 0.
        unsafe {
            call(
                script.as_ptr().cast(),
                script.len(),
                name.as_ptr(),
                true,
                text.as_mut_ptr().cast(),
                size,
            )
        }
    });
    let outcome = match status {
        sys::MEZULOBU_DONE => Outcome::AllWell,
        sys::MEZULOBU_NO => Outcome::NotAllWell,
        sys::MEZULOBU_REFUSED => Outcome::Faulty,
        _ => return Err(ScriptError::NoMemory),
    };
    Ok(Explanation {
        outcome,
        text: text_of(&text),
    })
}

/// Explains a script: where it has a fault, why calls were refused, who is awaited, what decided each
/// value of a choice, and who is in the way. `file` stands before lines and columns, up to its first 0.
pub fn explain(script: &[u8], file: &str) -> Result<Explanation, ScriptError> {
    explained(sys::mezulobu_explain, script, file)
}

/// The same as objects of JSON, one a line.
pub fn explain_json(script: &[u8], file: &str) -> Result<Explanation, ScriptError> {
    explained(sys::mezulobu_explain_json, script, file)
}
