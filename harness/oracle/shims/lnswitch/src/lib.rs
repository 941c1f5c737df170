//! A switch of the logarithm. `f64::ln` compiles to a call of the C symbol `log`, and a program
//! that links this crate gets the `log` below in place of libm's: libm's own result while the
//! switch is off, its argument unchanged while it is on. So a concentration can carry any double
//! as the potential of its strand.

use std::ffi::{c_char, c_void};
use std::sync::atomic::{AtomicBool, Ordering};
use std::sync::OnceLock;

static IDENTITY: AtomicBool = AtomicBool::new(false);
static LIBM_LOG: OnceLock<extern "C" fn(f64) -> f64> = OnceLock::new();

/// glibc's `RTLD_NOW`.
const RTLD_NOW: i32 = 2;

extern "C" {
    fn dlopen(name: *const c_char, flags: i32) -> *mut c_void;
    fn dlsym(library: *mut c_void, name: *const c_char) -> *mut c_void;
}

pub fn set_identity(on: bool) {
    IDENTITY.store(on, Ordering::Relaxed)
}

pub fn is_identity() -> bool {
    IDENTITY.load(Ordering::Relaxed)
}

#[no_mangle]
pub extern "C" fn log(x: f64) -> f64 {
    if is_identity() {
        return x;
    }
    LIBM_LOG.get_or_init(libm_log)(x)
}

/// The name `log` is taken by the function above, so libm's is asked for by name at run time.
fn libm_log() -> extern "C" fn(f64) -> f64 {
    // SAFETY: both names end in NUL, and `log` of libm has the type that the result is given.
    unsafe {
        let libm = dlopen(c"libm.so.6".as_ptr(), RTLD_NOW);
        assert!(!libm.is_null(), "libm.so.6 can't be opened");
        let symbol = dlsym(libm, c"log".as_ptr());
        assert!(!symbol.is_null(), "libm.so.6 has no log");
        std::mem::transmute::<*mut c_void, extern "C" fn(f64) -> f64>(symbol)
    }
}
