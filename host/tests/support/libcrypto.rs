//! ARIA-ECB, ARIA-CTR and CMAC of OpenSSL's libcrypto, the implementation of other origin. The
//! library itself does not link it: only the tests and the bench do. CMAC needs libcrypto 3.0.

use std::ffi::{c_char, c_int, c_uchar, c_uint, c_void, CStr, CString};
use std::ptr;

use aria_host::Direction;

#[link(name = "crypto")]
extern "C" {
    fn OpenSSL_version(what: c_int) -> *const c_char;
    fn EVP_aria_128_ecb() -> *const c_void;
    fn EVP_aria_192_ecb() -> *const c_void;
    fn EVP_aria_256_ecb() -> *const c_void;
    fn EVP_aria_128_ctr() -> *const c_void;
    fn EVP_aria_192_ctr() -> *const c_void;
    fn EVP_aria_256_ctr() -> *const c_void;
    fn EVP_CIPHER_CTX_new() -> *mut c_void;
    fn EVP_CIPHER_CTX_free(context: *mut c_void);
    fn EVP_CIPHER_CTX_set_padding(context: *mut c_void, padding: c_int) -> c_int;
    fn EVP_CipherInit_ex(
        context: *mut c_void,
        cipher: *const c_void,
        engine: *mut c_void,
        key: *const c_uchar,
        iv: *const c_uchar,
        encrypt: c_int,
    ) -> c_int;
    fn EVP_CipherUpdate(
        context: *mut c_void,
        out: *mut c_uchar,
        out_len: *mut c_int,
        input: *const c_uchar,
        input_len: c_int,
    ) -> c_int;
    fn EVP_MAC_fetch(
        library: *mut c_void,
        name: *const c_char,
        properties: *const c_char,
    ) -> *mut c_void;
    fn EVP_MAC_free(mac: *mut c_void);
    fn EVP_MAC_CTX_new(mac: *mut c_void) -> *mut c_void;
    fn EVP_MAC_CTX_free(context: *mut c_void);
    fn EVP_MAC_CTX_set_params(context: *mut c_void, params: *const Param) -> c_int;
    fn EVP_MAC_init(
        context: *mut c_void,
        key: *const c_uchar,
        key_len: usize,
        params: *const Param,
    ) -> c_int;
    fn EVP_MAC_update(context: *mut c_void, data: *const c_uchar, data_len: usize) -> c_int;
    fn EVP_MAC_final(
        context: *mut c_void,
        out: *mut c_uchar,
        out_len: *mut usize,
        out_size: usize,
    ) -> c_int;
    fn OSSL_PARAM_construct_utf8_string(
        key: *const c_char,
        value: *mut c_char,
        value_len: usize,
    ) -> Param;
    fn OSSL_PARAM_construct_end() -> Param;
}

/// OSSL_PARAM, a named setting.
#[repr(C)]
struct Param {
    key: *const c_char,
    data_type: c_uint,
    data: *mut c_void,
    data_size: usize,
    return_size: usize,
}

/// The library's name and version, as it gives them.
pub fn version() -> String {
    // SAFETY: number 0 asks for the version, a constant string of the library.
    let text = unsafe { CStr::from_ptr(OpenSSL_version(0)) };
    text.to_string_lossy().into_owned()
}

/// A cipher of libcrypto in one direction, for keys of one length.
struct Cipher {
    context: *mut c_void,
    key_len: usize,
}

impl Cipher {
    /// `named` holds the cipher for keys of 16, 24 and 32 bytes.
    fn new(
        named: [unsafe extern "C" fn() -> *const c_void; 3],
        key_len: usize,
        encrypt: c_int,
    ) -> Cipher {
        let [short, middle, long] = named;
        // SAFETY: the calls take no memory but the context, and null stands for what is not given.
        unsafe {
            let cipher = match key_len {
                16 => short(),
                24 => middle(),
                32 => long(),
                _ => panic!("ARIA has no key of {key_len} bytes"),
            };
            let context = EVP_CIPHER_CTX_new();
            assert!(!context.is_null(), "EVP_CIPHER_CTX_new");
            let started = EVP_CipherInit_ex(
                context,
                cipher,
                ptr::null_mut(),
                ptr::null(),
                ptr::null(),
                encrypt,
            );
            assert_eq!(started, 1, "EVP_CipherInit_ex: no ARIA in this libcrypto");
            assert_eq!(EVP_CIPHER_CTX_set_padding(context, 0), 1);
            Cipher { context, key_len }
        }
    }

    /// Prepares the key and processes the run in place, as one of our calls does. `iv` is null, or has
    /// sixteen bytes where the cipher takes them.
    fn run(&mut self, key: &[u8], iv: *const c_uchar, run: &mut [u8]) {
        assert_eq!(key.len(), self.key_len);
        let len = c_int::try_from(run.len()).expect("a run below 2 GiB");
        let mut out_len = 0;
        // SAFETY: the key has the cipher's length; an update of whole blocks without padding, or of a
        // stream, writes as many bytes as it reads, and input and output may be the same.
        unsafe {
            let keyed = EVP_CipherInit_ex(
                self.context,
                ptr::null(),
                ptr::null_mut(),
                key.as_ptr(),
                iv,
                -1,
            );
            assert_eq!(keyed, 1, "EVP_CipherInit_ex");
            let done = EVP_CipherUpdate(
                self.context,
                run.as_mut_ptr(),
                &mut out_len,
                run.as_ptr(),
                len,
            );
            assert_eq!(done, 1, "EVP_CipherUpdate");
        }
        assert_eq!(out_len, len);
    }
}

impl Drop for Cipher {
    fn drop(&mut self) {
        // SAFETY: the context came from EVP_CIPHER_CTX_new and is freed once.
        unsafe { EVP_CIPHER_CTX_free(self.context) }
    }
}

/// ARIA-ECB in one direction, for keys of one length.
pub struct Ecb(Cipher);

impl Ecb {
    pub fn new(key_len: usize, direction: Direction) -> Ecb {
        let encrypt = match direction {
            Direction::Forward => 1,
            Direction::Back => 0,
        };
        let named = [EVP_aria_128_ecb, EVP_aria_192_ecb, EVP_aria_256_ecb];
        Ecb(Cipher::new(named, key_len, encrypt))
    }

    pub fn run(&mut self, key: &[u8], run: &mut [u8]) {
        assert_eq!(run.len() % 16, 0);
        self.0.run(key, ptr::null(), run);
    }
}

/// ARIA-CTR for keys of one length. Encryption and decryption are the same.
pub struct Ctr(Cipher);

impl Ctr {
    pub fn new(key_len: usize) -> Ctr {
        let named = [EVP_aria_128_ctr, EVP_aria_192_ctr, EVP_aria_256_ctr];
        Ctr(Cipher::new(named, key_len, 1))
    }

    /// Under the counter blocks from `first` on.
    pub fn run(&mut self, key: &[u8], first: &[u8; 16], run: &mut [u8]) {
        self.0.run(key, first.as_ptr(), run);
    }
}

/// CMAC with a block cipher of sixteen-byte blocks, for keys of one length.
pub struct Cmac {
    context: *mut c_void,
    key_len: usize,
}

impl Cmac {
    /// With ARIA.
    pub fn new(key_len: usize) -> Cmac {
        Cmac::with("ARIA", key_len)
    }

    /// With the cipher of that name.
    pub fn with(cipher: &str, key_len: usize) -> Cmac {
        // libcrypto's CMAC takes the cipher by the name of its CBC mode.
        let mode = format!("{cipher}-{}-CBC", 8 * key_len);
        let [method, setting, value] =
            ["CMAC", "cipher", &mode].map(|name| CString::new(name).expect("no zero byte"));
        // SAFETY: each name ends in a zero byte, by which a value of length 0 is measured, and is
        // only read; the context keeps what it needs of the method and of the names.
        unsafe {
            let mac = EVP_MAC_fetch(ptr::null_mut(), method.as_ptr(), ptr::null());
            assert!(!mac.is_null(), "EVP_MAC_fetch: no CMAC in this libcrypto");
            let context = EVP_MAC_CTX_new(mac);
            EVP_MAC_free(mac);
            assert!(!context.is_null(), "EVP_MAC_CTX_new");
            let params = [
                OSSL_PARAM_construct_utf8_string(setting.as_ptr(), value.as_ptr().cast_mut(), 0),
                OSSL_PARAM_construct_end(),
            ];
            let set = EVP_MAC_CTX_set_params(context, params.as_ptr());
            assert_eq!(set, 1, "EVP_MAC_CTX_set_params: no {mode}");
            Cmac { context, key_len }
        }
    }

    /// Prepares the key and makes the tag of the run, as one of our calls does.
    pub fn tag(&mut self, key: &[u8], run: &[u8]) -> [u8; 16] {
        assert_eq!(key.len(), self.key_len);
        let (mut tag, mut tag_len) = ([0; 16], 0);
        // SAFETY: the slices are valid for their lengths; the tag has the cipher's block length.
        unsafe {
            let keyed = EVP_MAC_init(self.context, key.as_ptr(), key.len(), ptr::null());
            assert_eq!(keyed, 1, "EVP_MAC_init");
            let read = EVP_MAC_update(self.context, run.as_ptr(), run.len());
            assert_eq!(read, 1, "EVP_MAC_update");
            let done = EVP_MAC_final(self.context, tag.as_mut_ptr(), &mut tag_len, tag.len());
            assert_eq!(done, 1, "EVP_MAC_final");
        }
        assert_eq!(tag_len, tag.len());
        tag
    }
}

impl Drop for Cmac {
    fn drop(&mut self) {
        // SAFETY: the context came from EVP_MAC_CTX_new and is freed once.
        unsafe { EVP_MAC_CTX_free(self.context) }
    }
}
