"""ARIA of OpenSSL's libcrypto, through ctypes: the model's cipher, of other origin than ours."""

import ctypes


def _load():
    for name in ("libcrypto.so.3", "libcrypto.so"):
        try:
            return ctypes.CDLL(name)
        except OSError:
            continue
    raise SystemExit("libcrypto is missing: install Debian's libssl-dev")


_LIB = _load()
_LIB.OpenSSL_version.restype = ctypes.c_char_p
_LIB.EVP_CIPHER_CTX_new.restype = ctypes.c_void_p
_LIB.EVP_CIPHER_CTX_free.argtypes = [ctypes.c_void_p]
_LIB.EVP_CIPHER_CTX_set_padding.argtypes = [ctypes.c_void_p, ctypes.c_int]
_LIB.EVP_CipherInit_ex.argtypes = [
    ctypes.c_void_p,
    ctypes.c_void_p,
    ctypes.c_void_p,
    ctypes.c_char_p,
    ctypes.c_char_p,
    ctypes.c_int,
]
_LIB.EVP_CipherUpdate.argtypes = [
    ctypes.c_void_p,
    ctypes.c_char_p,
    ctypes.POINTER(ctypes.c_int),
    ctypes.c_char_p,
    ctypes.c_int,
]


_LIB.EVP_MAC_fetch.restype = ctypes.c_void_p
_LIB.EVP_MAC_fetch.argtypes = [ctypes.c_void_p, ctypes.c_char_p, ctypes.c_char_p]
_LIB.EVP_MAC_free.argtypes = [ctypes.c_void_p]
_LIB.EVP_MAC_CTX_new.restype = ctypes.c_void_p
_LIB.EVP_MAC_CTX_new.argtypes = [ctypes.c_void_p]
_LIB.EVP_MAC_CTX_free.argtypes = [ctypes.c_void_p]
_LIB.EVP_MAC_init.argtypes = [ctypes.c_void_p, ctypes.c_char_p, ctypes.c_size_t, ctypes.c_void_p]
_LIB.EVP_MAC_update.argtypes = [ctypes.c_void_p, ctypes.c_char_p, ctypes.c_size_t]
_LIB.EVP_MAC_final.argtypes = [
    ctypes.c_void_p,
    ctypes.c_char_p,
    ctypes.POINTER(ctypes.c_size_t),
    ctypes.c_size_t,
]

_UTF8 = 4  # OSSL_PARAM_UTF8_STRING


class _Setting(ctypes.Structure):
    """OpenSSL's OSSL_PARAM."""

    _fields_ = [
        ("key", ctypes.c_char_p),
        ("data_type", ctypes.c_uint),
        ("data", ctypes.c_void_p),
        ("data_size", ctypes.c_size_t),
        ("return_size", ctypes.c_size_t),
    ]


def _run(mode, key, iv, encrypt, data, name="aria"):
    if len(key) not in (16, 24, 32):
        raise ValueError("%s has no key of %d bytes" % (name, len(key)))
    cipher = getattr(_LIB, "EVP_%s_%d_%s" % (name, 8 * len(key), mode))
    cipher.restype = ctypes.c_void_p
    context = _LIB.EVP_CIPHER_CTX_new()
    try:
        if _LIB.EVP_CipherInit_ex(context, cipher(), None, key, iv, encrypt) != 1:
            raise RuntimeError("EVP_CipherInit_ex: no %s in this libcrypto" % name)
        _LIB.EVP_CIPHER_CTX_set_padding(context, 0)
        out = ctypes.create_string_buffer(len(data) + 16)
        length = ctypes.c_int(0)
        if _LIB.EVP_CipherUpdate(context, out, ctypes.byref(length), data, len(data)) != 1:
            raise RuntimeError("EVP_CipherUpdate")
        return out.raw[: length.value]
    finally:
        _LIB.EVP_CIPHER_CTX_free(context)


def forward(key, blocks):
    """Each 16-byte block encrypted on its own (ECB)."""
    if len(blocks) % 16:
        raise ValueError("not whole blocks")
    return _run("ecb", key, None, 1, blocks) if blocks else b""


def back(key, blocks):
    """Each 16-byte block decrypted on its own (ECB)."""
    if len(blocks) % 16:
        raise ValueError("not whole blocks")
    return _run("ecb", key, None, 0, blocks) if blocks else b""


def counter(key, first, data):
    """The data under counter mode, the 16-byte block `first` being the first counter."""
    return _run("ctr", key, first, 1, data) if data else b""


def aes(key, block):
    """A block under AES, with which the CMAC examples of SP 800-38B are."""
    return _run("ecb", key, None, 1, block, "aes")


def cmac(key, data):
    """libcrypto's own CMAC with ARIA."""
    mac = _LIB.EVP_MAC_fetch(None, b"CMAC", None)
    context = _LIB.EVP_MAC_CTX_new(mac)
    name = ctypes.create_string_buffer(b"ARIA-%d-CBC" % (8 * len(key)))
    settings = (_Setting * 2)(_Setting(b"cipher", _UTF8, ctypes.addressof(name), len(name.value), 0), _Setting())
    tag = ctypes.create_string_buffer(16)
    length = ctypes.c_size_t(0)
    try:
        if (
            _LIB.EVP_MAC_init(context, key, len(key), settings) != 1
            or _LIB.EVP_MAC_update(context, data, len(data)) != 1
            or _LIB.EVP_MAC_final(context, tag, ctypes.byref(length), 16) != 1
            or length.value != 16
        ):
            raise RuntimeError("EVP_MAC: no CMAC with ARIA in this libcrypto")
        return tag.raw
    finally:
        _LIB.EVP_MAC_CTX_free(context)
        _LIB.EVP_MAC_free(mac)


def version():
    return _LIB.OpenSSL_version(0).decode()
