//! The encoder of WebAssembly components, for Rust: a safe wrapper of `include/wast.h`.

#[repr(C)]
#[derive(Clone, Copy, Debug, Default, PartialEq, Eq)]
pub struct Refusal {
    pub kind: u32,
    pub offset: u64,
    pub found: u64,
    pub limit: u64,
}

/// Why there is no binary.
#[derive(Clone, Copy, Debug, PartialEq, Eq)]
pub enum Error {
    Refused(Refusal),
    NoMemory,
}

type Call = unsafe extern "C" fn(*const u8, usize, u32, *mut u8, usize, &mut usize, &mut Refusal) -> u8;

unsafe extern "C" {
    fn wast_encode(text: *const u8, length: usize, flags: u32, out: *mut u8, room: usize, needed: &mut usize, why: &mut Refusal) -> u8;
    fn wast_origins(text: *const u8, length: usize, flags: u32, out: *mut u8, room: usize, needed: &mut usize, why: &mut Refusal) -> u8;
    fn wast_kind_name(kind: u32, out: *mut u8, room: usize, needed: &mut usize) -> u8;
    fn wast_message(why: &Refusal, out: *mut u8, room: usize, needed: &mut usize) -> u8;
}

/// Asks with a buffer that is long enough for most, and once more if it wasn't.
fn filled(mut out: Vec<u8>, call: impl Fn(&mut [u8], &mut usize) -> u8) -> Result<Vec<u8>, u8> {
    let mut needed = 0;
    let mut status = call(&mut out, &mut needed);
    if status == 2 {
        out.resize(needed, 0);
        status = call(&mut out, &mut needed);
    }
    out.truncate(needed);
    if status == 0 { Ok(out) } else { Err(status) }
}

fn made(call: Call, text: &str, legacy: bool) -> Result<Vec<u8>, Error> {
    let why = std::cell::Cell::new(Refusal::default());
    filled(vec![0; text.len()], |out, needed| {
        let mut told = Refusal::default();
        // SAFETY: each pair is that of a slice that is borrowed for the call.
        let status = unsafe { call(text.as_ptr(), text.len(), legacy.into(), out.as_mut_ptr(), out.len(), needed, &mut told) };
        why.set(told);
        status
    })
    .map_err(|status| if status == 1 { Error::Refused(why.get()) } else { Error::NoMemory })
}

/// The binary of the component that a text spells.
pub fn encode(text: &str, legacy: bool) -> Result<Vec<u8>, Error> {
    made(wast_encode, text, legacy)
}

/// The lines of the origins of its definitions.
pub fn origins(text: &str, legacy: bool) -> Result<String, Error> {
    made(wast_origins, text, legacy).map(|lines| String::from_utf8_lossy(&lines).into_owned())
}

impl Refusal {
    /// The printed name of its kind.
    pub fn name(&self) -> String {
        // SAFETY: as above.
        let name = filled(vec![0; 32], |out, needed| unsafe { wast_kind_name(self.kind, out.as_mut_ptr(), out.len(), needed) });
        String::from_utf8_lossy(&name.unwrap_or_default()).into_owned()
    }

    /// What is wrong, in plain words.
    pub fn message(&self) -> String {
        // SAFETY: as above.
        let words = filled(vec![0; 128], |out, needed| unsafe { wast_message(self, out.as_mut_ptr(), out.len(), needed) });
        String::from_utf8_lossy(&words.unwrap_or_default()).into_owned()
    }
}
