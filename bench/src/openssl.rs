//! OpenSSL's libcrypto, opened while the program runs, so that a machine without it can time the rest, and a second
//! build of it can be timed beside the first.

use std::ffi::{c_char, c_int, c_uint, c_void, CStr, CString};
use std::mem::transmute;

extern "C" {
    fn dlopen(file: *const c_char, flags: c_int) -> *mut c_void;
    fn dlsym(library: *mut c_void, name: *const c_char) -> *mut c_void;
}

/// Every symbol is found at once, and for this library alone.
const RTLD_NOW: c_int = 2;

type Sha256 = extern "C" fn(*const u8, usize, *mut u8) -> *mut u8;
type Algorithm = extern "C" fn() -> *const c_void;
type Hmac = extern "C" fn(*const c_void, *const u8, c_int, *const u8, usize, *mut u8, *mut c_uint) -> *mut u8;
type Start = extern "C" fn(*mut State) -> c_int;
type Take = extern "C" fn(*mut State, *const u8, usize) -> c_int;
type End = extern "C" fn(*mut u8, *mut State) -> c_int;
type Version = extern "C" fn(c_int) -> *const c_char;

/// Room for a SHA256_CTX, which has 112 bytes.
#[repr(C, align(8))]
struct State([u8; 256]);

/// The functions of one libcrypto.
pub struct Openssl {
    pub version: String,
    sha256: Sha256,
    algorithm: Algorithm,
    hmac: Hmac,
    start: Start,
    take: Take,
    end: End,
}

fn symbol(library: *mut c_void, name: &CStr) -> Option<*mut c_void> {
    let found = unsafe { dlsym(library, name.as_ptr()) };
    (!found.is_null()).then_some(found)
}

impl Openssl {
    /// The library of a file's path, or of a name that the system knows.
    pub fn open(file: &str) -> Option<Openssl> {
        let library = unsafe { dlopen(CString::new(file).ok()?.as_ptr(), RTLD_NOW) };
        if library.is_null() {
            return None;
        }
        // The types are those of OpenSSL's headers.
        unsafe {
            let version: Version = transmute(symbol(library, c"OpenSSL_version")?);
            Some(Openssl {
                version: CStr::from_ptr(version(0)).to_string_lossy().into_owned(),
                sha256: transmute::<*mut c_void, Sha256>(symbol(library, c"SHA256")?),
                algorithm: transmute::<*mut c_void, Algorithm>(symbol(library, c"EVP_sha256")?),
                hmac: transmute::<*mut c_void, Hmac>(symbol(library, c"HMAC")?),
                start: transmute::<*mut c_void, Start>(symbol(library, c"SHA256_Init")?),
                take: transmute::<*mut c_void, Take>(symbol(library, c"SHA256_Update")?),
                end: transmute::<*mut c_void, End>(symbol(library, c"SHA256_Final")?),
            })
        }
    }

    pub fn sha256(&self, bytes: &[u8]) -> [u8; 32] {
        let mut hash = [0; 32];
        (self.sha256)(bytes.as_ptr(), bytes.len(), hash.as_mut_ptr());
        hash
    }

    /// HMAC by the function of that name.
    pub fn hmac(&self, key: &[u8], bytes: &[u8]) -> [u8; 32] {
        let mut hash = [0; 32];
        let mut length = 0;
        let algorithm = (self.algorithm)();
        let (key, key_length) = (key.as_ptr(), key.len() as c_int);
        (self.hmac)(algorithm, key, key_length, bytes.as_ptr(), bytes.len(), hash.as_mut_ptr(), &mut length);
        hash
    }

    /// HMAC from hashes, for a key of at most 64 bytes: nothing but SHA-256 is asked of the library.
    pub fn hmac_of_hashes(&self, key: &[u8], bytes: &[u8]) -> [u8; 32] {
        let mut block = [0; 64];
        block[..key.len()].copy_from_slice(key);
        let inner = self.hash_of_two(&block.map(|byte| byte ^ 0x36), bytes);
        self.hash_of_two(&block.map(|byte| byte ^ 0x5c), &inner)
    }

    fn hash_of_two(&self, first: &[u8], second: &[u8]) -> [u8; 32] {
        let mut state = State([0; 256]);
        let mut hash = [0; 32];
        (self.start)(&mut state);
        (self.take)(&mut state, first.as_ptr(), first.len());
        (self.take)(&mut state, second.as_ptr(), second.len());
        (self.end)(hash.as_mut_ptr(), &mut state);
        hash
    }
}
