//! Random bytes from the operating system, by its own call: no file is opened.
//!
//! This is one of the two files with unsafe code; `simd.rs` is the other. It is trusted that each
//! system has the functions declared here, with these types, and that a call with a pointer and a
//! size writes only to that many bytes from the pointer on. Each call gets the pointer and the size
//! from a `&mut [u8]`. This slice may be written over its whole length, nothing else uses its bytes
//! during the call, and whatever is written there is a value of `u8`.

use std::io::{self, ErrorKind};

/// Fills the slice with random bytes from the operating system. For an empty slice it makes no
/// call. Nothing is proved about the randomness of the bytes.
///
/// # Errors
///
/// Returns the error of the system call, or an error of kind `Unsupported` if no call is known for
/// the system. The contents of the slice are unspecified then.
#[inline]
pub fn fill(bytes: &mut [u8]) -> io::Result<()> {
    fill_by(bytes, call::MOST, call::request)
}

// Fills a slice by requests of at most `most` bytes each. A request returns how many bytes it
// wrote, counted from the first one. A request that a signal interrupted is made again.
#[inline]
fn fill_by(
    bytes: &mut [u8],
    most: usize,
    mut request: impl FnMut(&mut [u8]) -> io::Result<usize>,
) -> io::Result<()> {
    let mut filled = 0;
    while filled < bytes.len() {
        let rest = &mut bytes[filled..];
        let size = rest.len().min(most);
        match request(&mut rest[..size]) {
            Ok(0) => return Err(ErrorKind::UnexpectedEof.into()),
            Ok(count) => filled += count,
            Err(error) if error.kind() == ErrorKind::Interrupted => {}
            Err(error) => return Err(error),
        }
    }
    Ok(())
}

/// `getrandom`, which returns the number of bytes written, or -1 and sets `errno`.
#[cfg(any(
    all(target_os = "linux", not(target_env = "gnu")),
    target_os = "dragonfly",
))]
mod call {
    use std::io;
    use std::os::raw::{c_uint, c_void};

    pub(super) const MOST: usize = usize::MAX;

    extern "C" {
        fn getrandom(bytes: *mut c_void, size: usize, flags: c_uint) -> isize;
    }

    // Without flags, the call blocks until the system has gathered enough entropy, which happens
    // once after it starts.
    pub(super) fn request(bytes: &mut [u8]) -> io::Result<usize> {
        // SAFETY: `getrandom` writes at most `size` bytes from its pointer on, and keeps no
        // pointer. Pointer and size are those of one `&mut [u8]`, which may be written over its
        // whole size.
        let count = unsafe { getrandom(bytes.as_mut_ptr().cast(), bytes.len(), 0) };
        usize::try_from(count).map_err(|_| io::Error::last_os_error())
    }
}

/// `getrandom` of glibc, which returns the number of bytes written, or -1 and sets `errno`. glibc
/// has it from 2.25 on, and Rust supports glibc from 2.17 on. So it is looked up at run time, as
/// std does, and if it is missing, the system call is made by its number. Android's C library has
/// it from API level 28 on, and Rust supports Android from API level 21 on. There the system call
/// is always made by its number.
#[cfg(any(all(target_os = "linux", target_env = "gnu"), target_os = "android"))]
mod call {
    use std::io;
    use std::os::raw::{c_long, c_uint, c_void};

    pub(super) const MOST: usize = usize::MAX;

    pub(super) type GetRandom = unsafe extern "C" fn(*mut c_void, usize, c_uint) -> isize;

    extern "C" {
        fn syscall(number: c_long, ...) -> c_long;
    }

    // The number of the system call, where it is known.
    const NUMBER: Option<c_long> = if cfg!(all(target_arch = "x86_64", target_pointer_width = "64"))
    {
        Some(318)
    } else if cfg!(target_arch = "x86") {
        Some(355)
    } else if cfg!(target_arch = "arm") {
        Some(384)
    } else if cfg!(any(target_arch = "powerpc", target_arch = "powerpc64")) {
        Some(359)
    } else if cfg!(target_arch = "s390x") {
        Some(349)
    } else if cfg!(any(target_arch = "aarch64", target_arch = "riscv64")) {
        Some(278)
    } else {
        None
    };

    // Without flags, the call blocks until the system has gathered enough entropy, which happens
    // once after it starts.
    pub(super) fn request(bytes: &mut [u8]) -> io::Result<usize> {
        request_by(get_random(), bytes, 0)
    }

    pub(super) fn request_by(
        function: Option<GetRandom>,
        bytes: &mut [u8],
        flags: c_uint,
    ) -> io::Result<usize> {
        let (first, size) = (bytes.as_mut_ptr().cast::<c_void>(), bytes.len());
        let count = match (function, NUMBER) {
            // SAFETY: `getrandom` writes at most `size` bytes from `first` on, and keeps no
            // pointer. Both are those of one `&mut [u8]`, which may be written over its whole size.
            // Every `GetRandom` is the C library's function: `get_random` alone makes one.
            (Some(getrandom), _) => unsafe { getrandom(first, size, flags) },
            // SAFETY: `number` is that of the system call `getrandom` on this processor (Linux
            // never changes a number), and the arguments are the three that it takes, in their
            // order and with their types. It writes at most `size` bytes from `first` on. Both are
            // those of one `&mut [u8]`, which may be written over its whole size.
            (None, Some(number)) => unsafe { syscall(number, first, size, flags) as isize },
            (None, None) => return Err(io::ErrorKind::Unsupported.into()),
        };
        usize::try_from(count).map_err(|_| io::Error::last_os_error())
    }

    // Android's C library is not asked, since its handle for all libraries has another value on
    // 32-bit processors.
    #[cfg(target_os = "android")]
    pub(super) fn get_random() -> Option<GetRandom> {
        None
    }

    // Returns the `getrandom` of the C library, or `None` if it has none. It is looked up once.
    #[cfg(not(target_os = "android"))]
    pub(super) fn get_random() -> Option<GetRandom> {
        use std::mem::transmute;
        use std::os::raw::c_char;
        use std::ptr::null_mut;
        use std::sync::atomic::{AtomicPtr, Ordering};

        extern "C" {
            fn dlsym(library: *mut c_void, name: *const c_char) -> *mut c_void;
        }

        const NOT_LOOKED_UP: *mut c_void = usize::MAX as *mut c_void;
        static ADDRESS: AtomicPtr<c_void> = AtomicPtr::new(NOT_LOOKED_UP);
        let mut address = ADDRESS.load(Ordering::Acquire);
        if address == NOT_LOOKED_UP {
            // SAFETY: `dlsym` needs a handle and a text that ends in a zero byte. A null pointer is
            // the handle `RTLD_DEFAULT` of glibc, which stands for all loaded libraries, and the
            // literal ends in `\0`. It is static, so it outlives the call.
            address = unsafe { dlsym(null_mut(), b"getrandom\0".as_ptr().cast()) };
            ADDRESS.store(address, Ordering::Release);
        }
        // SAFETY: an `Option` of a function pointer has the size of a pointer, which the compiler
        // checks, and null is `None`. An address that is not null is what `dlsym` found by the name
        // `getrandom`: the C library's function, whose declaration in C has the type `GetRandom`.
        // It stays loaded, as std uses that library too. `NOT_LOOKED_UP` was replaced above.
        unsafe { transmute::<*mut c_void, Option<GetRandom>>(address) }
    }
}

#[cfg(any(
    target_os = "macos",
    target_os = "freebsd",
    target_os = "netbsd",
    target_os = "openbsd",
    target_os = "solaris",
    target_os = "illumos",
    target_os = "emscripten",
))]
use getentropy as call;

/// `getentropy`, which fills at most 256 bytes completely, or returns -1 and sets `errno`. It is
/// also compiled on Linux, for the tests.
#[cfg(any(
    all(test, target_os = "linux"),
    target_os = "macos",
    target_os = "freebsd",
    target_os = "netbsd",
    target_os = "openbsd",
    target_os = "solaris",
    target_os = "illumos",
    target_os = "emscripten",
))]
mod getentropy {
    use std::io;
    use std::os::raw::{c_int, c_void};

    pub(super) const MOST: usize = 256;

    extern "C" {
        fn getentropy(bytes: *mut c_void, size: usize) -> c_int;
    }

    pub(super) fn request(bytes: &mut [u8]) -> io::Result<usize> {
        // SAFETY: `getentropy` writes at most `size` bytes from its pointer on, and keeps no
        // pointer. Pointer and size are those of one `&mut [u8]`, which may be written over its
        // whole size.
        match unsafe { getentropy(bytes.as_mut_ptr().cast(), bytes.len()) } {
            0 => Ok(bytes.len()),
            _ => Err(io::Error::last_os_error()),
        }
    }
}

#[cfg(all(target_vendor = "apple", not(target_os = "macos")))]
use common_crypto as call;

/// `CCRandomGenerateBytes` of iOS and its relatives, which fills the slice completely, or returns a
/// status. On Linux, the tests provide a replacement.
#[cfg(any(
    all(test, target_os = "linux"),
    all(target_vendor = "apple", not(target_os = "macos")),
))]
mod common_crypto {
    use std::io;
    use std::os::raw::c_void;

    pub(super) const MOST: usize = usize::MAX;

    extern "C" {
        fn CCRandomGenerateBytes(bytes: *mut c_void, size: usize) -> i32;
    }

    pub(super) fn request(bytes: &mut [u8]) -> io::Result<usize> {
        // SAFETY: `CCRandomGenerateBytes` writes `size` bytes from its pointer on, and keeps no
        // pointer. Pointer and size are those of one `&mut [u8]`, which may be written over its
        // whole size.
        match unsafe { CCRandomGenerateBytes(bytes.as_mut_ptr().cast(), bytes.len()) } {
            0 => Ok(bytes.len()),
            _ => Err(io::Error::new(
                io::ErrorKind::Other,
                "CCRandomGenerateBytes failed",
            )),
        }
    }
}

#[cfg(target_os = "wasi")]
use wasi as call;

/// `random_get` of WASI, which fills the slice completely, or returns its error. On Linux, the
/// tests provide a replacement.
#[cfg(any(all(test, target_os = "linux"), target_os = "wasi"))]
mod wasi {
    use std::io;

    pub(super) const MOST: usize = usize::MAX;

    #[cfg_attr(
        target_os = "wasi",
        link(wasm_import_module = "wasi_snapshot_preview1")
    )]
    extern "C" {
        fn random_get(bytes: *mut u8, size: usize) -> i32;
    }

    pub(super) fn request(bytes: &mut [u8]) -> io::Result<usize> {
        // SAFETY: `random_get` writes `size` bytes from its pointer on, and keeps no pointer.
        // Pointer and size are those of one `&mut [u8]`, which may be written over its whole size.
        match unsafe { random_get(bytes.as_mut_ptr(), bytes.len()) } {
            0 => Ok(bytes.len()),
            error => Err(io::Error::from_raw_os_error(error)),
        }
    }
}

#[cfg(windows)]
use process_prng as call;

/// `ProcessPrng` of Windows, which fills the slice completely. There is no import library for its
/// DLL, so the DLL is loaded at run time, and stays loaded. On Linux, the tests provide a
/// replacement.
#[cfg(any(all(test, target_os = "linux"), windows))]
mod process_prng {
    use std::io;
    use std::os::raw::c_void;

    pub(super) type ProcessPrng = unsafe extern "system" fn(bytes: *mut u8, size: usize) -> i32;

    pub(super) const MOST: usize = usize::MAX;

    // Search only the system directory: anyone could place a library of that name next to the
    // program.
    const LOAD_LIBRARY_SEARCH_SYSTEM32: u32 = 0x800;

    #[cfg_attr(windows, link(name = "kernel32"))]
    extern "system" {
        fn LoadLibraryExA(name: *const u8, file: *mut c_void, flags: u32) -> *mut c_void;
        fn GetProcAddress(library: *mut c_void, name: *const u8) -> Option<ProcessPrng>;
    }

    pub(super) fn request(bytes: &mut [u8]) -> io::Result<usize> {
        let process_prng = load().ok_or_else(io::Error::last_os_error)?;
        // SAFETY: `ProcessPrng` writes `size` bytes from its pointer on, and keeps no pointer.
        // Pointer and size are those of one `&mut [u8]`, which may be written over its whole size.
        // `load` returned the function of that name; its library is never unloaded.
        match unsafe { process_prng(bytes.as_mut_ptr(), bytes.len()) } {
            0 => Err(io::Error::last_os_error()),
            _ => Ok(bytes.len()),
        }
    }

    fn load() -> Option<ProcessPrng> {
        let name = b"bcryptprimitives.dll\0".as_ptr();
        // SAFETY: `LoadLibraryExA` needs a text that ends in a zero byte, a null pointer and flags
        // that it knows. The literal ends in `\0` and is static. What is loaded is the system's own
        // library, as no other folder is searched.
        let library =
            unsafe { LoadLibraryExA(name, std::ptr::null_mut(), LOAD_LIBRARY_SEARCH_SYSTEM32) };
        if library.is_null() {
            return None;
        }
        // SAFETY: `GetProcAddress` needs a loaded library and a text that ends in a zero byte. The
        // library is not null, so it was loaded just now, and the literal ends in `\0`. It returns
        // null, which is `None`, or the address of the function of this name, whose type Microsoft
        // documents as that of `ProcessPrng`: a pointer, a size, and a 32-bit status.
        unsafe { GetProcAddress(library, b"ProcessPrng\0".as_ptr()) }
    }
}

#[cfg(not(any(
    target_os = "linux",
    target_os = "android",
    target_os = "dragonfly",
    target_os = "freebsd",
    target_os = "netbsd",
    target_os = "openbsd",
    target_os = "solaris",
    target_os = "illumos",
    target_os = "emscripten",
    target_os = "wasi",
    target_vendor = "apple",
    windows,
)))]
mod call {
    use std::io;

    pub(super) const MOST: usize = usize::MAX;

    pub(super) fn request(_: &mut [u8]) -> io::Result<usize> {
        Err(io::ErrorKind::Unsupported.into())
    }
}

#[cfg(all(test, unix))]
mod tests {
    use super::fill_by;
    use std::io::{self, ErrorKind};
    use std::vec;
    use std::vec::Vec;

    const EINTR: i32 = 4;

    // The size of a request, and the count or the system error that is returned for it.
    type Request = (usize, Result<usize, i32>);

    // Fills bytes by exactly these requests, of at most 20 bytes each, which write 1, 2, 3, ..
    fn filled_by(requests: &[Request], size: usize) -> (Vec<u8>, io::Result<()>) {
        let mut bytes = vec![0; size];
        let mut numbers = 1..=u8::MAX;
        let mut left = requests.iter();
        let result = fill_by(&mut bytes, 20, |part| {
            let (size, outcome) = *left.next().expect("a request too many");
            assert_eq!(part.len(), size, "{requests:?}");
            let count = outcome.map_err(io::Error::from_raw_os_error)?;
            part[..count].fill_with(|| numbers.next().expect("a small number"));
            Ok(count)
        });
        assert_eq!(left.len(), 0, "{requests:?}: some were not made");
        (bytes, result)
    }

    #[test]
    fn whole_fills() {
        let rows: [(usize, &[Request]); 6] = [
            (0, &[]),
            (20, &[(20, Ok(20))]),
            (21, &[(20, Ok(20)), (1, Ok(1))]),
            (8, &[(8, Ok(3)), (5, Ok(1)), (4, Ok(4))]),
            (45, &[(20, Ok(20)), (20, Ok(5)), (20, Ok(20))]),
            (
                8,
                &[
                    (8, Err(EINTR)),
                    (8, Err(EINTR)),
                    (8, Ok(2)),
                    (6, Err(EINTR)),
                    (6, Ok(6)),
                ],
            ),
        ];
        for (size, requests) in rows {
            let (bytes, result) = filled_by(requests, size);
            assert!(result.is_ok(), "{requests:?}");
            assert!(bytes.into_iter().eq((1..).take(size)), "{requests:?}");
        }
    }

    // A request is repeated no matter how often in a row it was interrupted.
    #[test]
    fn many_interruptions() {
        let mut requests: Vec<Request> = vec![(8, Err(EINTR)); 10_000];
        requests.push((8, Ok(7)));
        requests.resize(20_000, (1, Err(EINTR)));
        requests.push((1, Ok(1)));
        let (bytes, result) = filled_by(&requests, 8);
        assert!(result.is_ok());
        assert_eq!(bytes, [1, 2, 3, 4, 5, 6, 7, 8]);
    }

    // More bytes than a 32-bit count can hold are one request. None of them is written, so they
    // take no memory.
    #[cfg(all(target_pointer_width = "64", not(miri)))]
    #[test]
    fn more_than_4_gibibytes() {
        for size in [1 << 32, (1 << 32) + 5] {
            let mut sizes = vec![];
            let filled = fill_by(&mut vec![0; size], usize::MAX, |part| {
                sizes.push(part.len());
                Ok(part.len())
            });
            assert!(filled.is_ok());
            assert_eq!(sizes, [size]);
        }
    }

    // Any error other than an interruption, at any request, ends the fill and is returned.
    #[test]
    fn failures() {
        for number in (1..134).filter(|number| *number != EINTR) {
            let rows: [&[Request]; 3] = [
                &[(8, Err(number))],
                &[(8, Ok(3)), (5, Err(number))],
                &[(8, Err(EINTR)), (8, Err(number))],
            ];
            for requests in rows {
                let error = filled_by(requests, 8).1.expect_err("a failure");
                assert_eq!(error.raw_os_error(), Some(number), "{requests:?}");
            }
        }
        for requests in [&[(8, Ok(0))][..], &[(8, Ok(7)), (1, Ok(0))]] {
            let error = filled_by(requests, 8).1.expect_err("no byte");
            assert_eq!(error.kind(), ErrorKind::UnexpectedEof, "{requests:?}");
        }
    }

    // Linux rejects unknown flags, by the function of glibc and by the number of the system call.
    #[cfg(all(target_os = "linux", target_env = "gnu", not(miri)))]
    #[test]
    fn getrandom_by_name_and_by_number() {
        use super::call::{get_random, request_by};
        const EINVAL: i32 = 22;
        assert!(get_random().is_some(), "glibc 2.25 or newer");
        for function in [get_random(), get_random(), None] {
            let refused = request_by(function, &mut [0; 8], !0).expect_err("unknown flags");
            assert_eq!(refused.raw_os_error(), Some(EINVAL));
            let mut bytes = [0; 200];
            let outcome = request_by(function, &mut bytes[..199], 0);
            assert_eq!(outcome.ok(), Some(199));
            assert!(bytes[150..].iter().any(|byte| *byte != 0) && bytes[199] == 0);
        }
    }

    // `getentropy` rejects more than 256 bytes.
    #[cfg(all(target_os = "linux", not(miri)))]
    #[test]
    fn the_systems_own_error() {
        const EIO: i32 = 5;
        let refused = super::getentropy::request(&mut [0; 257]).expect_err("too many bytes");
        assert_eq!(refused.raw_os_error(), Some(EIO));
    }

    #[cfg(all(target_os = "linux", not(miri)))]
    #[test]
    fn long_fills_by_getentropy() {
        use super::getentropy::{request, MOST};
        let (mut bytes, mut requests) = ([0; 3000], 0);
        let filled = fill_by(&mut bytes, MOST, |part| {
            requests += 1;
            assert!(requests <= 12, "a request too many");
            request(part)
        });
        assert!(filled.is_ok());
        assert!(bytes
            .chunks(100)
            .all(|part| part.iter().any(|byte| *byte != 0)));
    }

    // Replacements for the calls of other systems. Each fills the bytes with ones.
    #[cfg(target_os = "linux")]
    #[allow(non_snake_case)]
    mod other_systems {
        use super::super::process_prng::ProcessPrng;
        use std::cell::Cell;
        use std::ffi::CStr;
        use std::os::raw::{c_char, c_int, c_void};
        use std::ptr::{null_mut, NonNull};
        use std::thread_local;

        thread_local! {
            // The status that the calls return.
            pub(super) static STATUS: Cell<i32> = const { Cell::new(0) };
            // Whether Windows has the library, and whether the library has the function.
            pub(super) static LIBRARY: Cell<bool> = const { Cell::new(true) };
            pub(super) static FUNCTION: Cell<bool> = const { Cell::new(true) };
        }

        extern "C" {
            fn __errno_location() -> *mut c_int;
        }

        fn set_errno(number: c_int) {
            // SAFETY: the C library returns the address of this thread's `errno`, which may be
            // written at any time.
            unsafe { *__errno_location() = number };
        }

        // Precondition: `size` bytes from `bytes` on may be written.
        unsafe extern "system" fn fill(bytes: *mut u8, size: usize) -> i32 {
            // SAFETY: that is the precondition.
            unsafe { bytes.write_bytes(1, size) };
            set_errno(1117);
            STATUS.with(Cell::get)
        }

        #[no_mangle]
        unsafe extern "C" fn CCRandomGenerateBytes(bytes: *mut c_void, size: usize) -> i32 {
            // SAFETY: this function has the precondition of `fill`.
            unsafe { fill(bytes.cast(), size) }
        }

        #[no_mangle]
        unsafe extern "C" fn random_get(bytes: *mut u8, size: usize) -> i32 {
            // SAFETY: this function has the precondition of `fill`.
            unsafe { fill(bytes, size) }
        }

        // Precondition: the name ends in a zero byte.
        unsafe fn is(name: *const u8, text: &str) -> bool {
            // SAFETY: that is the precondition.
            let name = unsafe { CStr::from_ptr(name.cast::<c_char>()) };
            name.to_bytes() == text.as_bytes()
        }

        #[no_mangle]
        unsafe extern "system" fn LoadLibraryExA(
            name: *const u8,
            file: *mut c_void,
            flags: u32,
        ) -> *mut c_void {
            // SAFETY: the function that this one replaces has the same precondition.
            let named = unsafe { is(name, "bcryptprimitives.dll") };
            if named && file.is_null() && flags == 0x800 && LIBRARY.with(Cell::get) {
                NonNull::dangling().as_ptr()
            } else {
                set_errno(126);
                null_mut()
            }
        }

        #[no_mangle]
        unsafe extern "system" fn GetProcAddress(
            library: *mut c_void,
            name: *const u8,
        ) -> Option<ProcessPrng> {
            // SAFETY: the function that this one replaces has the same precondition.
            let named = unsafe { is(name, "ProcessPrng") };
            set_errno(127);
            (named && !library.is_null() && FUNCTION.with(Cell::get)).then_some(fill)
        }
    }

    // Returns the bytes of a fill, and its result, if the system call returns this status.
    #[cfg(target_os = "linux")]
    fn filled_with_status(
        status: i32,
        most: usize,
        request: fn(&mut [u8]) -> io::Result<usize>,
    ) -> ([u8; 9], io::Result<()>) {
        let mut bytes = [0; 9];
        other_systems::STATUS.with(|returned| returned.set(status));
        let outcome = fill_by(&mut bytes[..8], most, request);
        (bytes, outcome)
    }

    // On Windows the status 0 means failure. On the others, any other status does.
    #[cfg(target_os = "linux")]
    #[test]
    fn statuses_of_other_systems() {
        use super::{common_crypto, process_prng, wasi};
        let whole = [1, 1, 1, 1, 1, 1, 1, 1, 0];
        for status in [0, 1, 2, -1, 5, 28, i32::MIN, i32::MAX] {
            let (bytes, outcome) =
                filled_with_status(status, process_prng::MOST, process_prng::request);
            let error = outcome.err().and_then(|error| error.raw_os_error());
            assert_eq!((bytes, error), (whole, (status == 0).then_some(1117)));
            let (bytes, outcome) =
                filled_with_status(status, common_crypto::MOST, common_crypto::request);
            let error = outcome.err().map(|error| error.kind());
            let wanted = (status != 0).then_some(ErrorKind::Other);
            assert_eq!((bytes, error), (whole, wanted), "{status}");
            let (bytes, outcome) = filled_with_status(status, wasi::MOST, wasi::request);
            let error = outcome.err().and_then(|error| error.raw_os_error());
            assert_eq!((bytes, error), (whole, (status != 0).then_some(status)));
        }
    }

    // These calls fill slices of any size completely.
    #[cfg(target_os = "linux")]
    #[test]
    fn long_fills_by_other_systems() {
        use super::{common_crypto, process_prng, wasi};
        type Requester = fn(&mut [u8]) -> io::Result<usize>;
        let rows: [(i32, usize, Requester); 3] = [
            (1, process_prng::MOST, process_prng::request),
            (0, common_crypto::MOST, common_crypto::request),
            (0, wasi::MOST, wasi::request),
        ];
        for (status, most, request) in rows {
            for size in [0, 255, 256, 257, 4097, 100_000] {
                let mut bytes = vec![0; size];
                other_systems::STATUS.with(|returned| returned.set(status));
                assert!(fill_by(&mut bytes, most, request).is_ok(), "{size}");
                assert!(bytes.iter().all(|byte| *byte == 1), "{size}");
            }
        }
    }

    #[cfg(target_os = "linux")]
    #[test]
    fn windows_without_its_library() {
        use super::process_prng::{request, MOST};
        let (library, function) = (&other_systems::LIBRARY, &other_systems::FUNCTION);
        for (missing, number) in [(library, 126), (function, 127)] {
            missing.with(|there| there.set(false));
            let (bytes, outcome) = filled_with_status(1, MOST, request);
            let error = outcome.err().and_then(|error| error.raw_os_error());
            assert_eq!((bytes, error), ([0; 9], Some(number)));
            missing.with(|there| there.set(true));
            assert!(filled_with_status(1, MOST, request).1.is_ok());
        }
    }
}
