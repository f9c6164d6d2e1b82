"""Passwords and PINs: their hashes, and what is refused of them.

A new hash is one of scrypt (RFC 7914), as `$scrypt$ln=14,r=8,p=1$SALT$KEY` with SALT and KEY in base64. Those
of earlier versions stay good: whatever nginx takes in a password file.
"""

from __future__ import annotations

import base64
import ctypes
import functools
import hashlib
import hmac
import re
import secrets
import subprocess

LEAST_SIGNS, MOST_SIGNS = 10, 200       # of a new password
PIN = re.compile(r"[0-9]{4,8}")
SCRYPT = re.compile(r"\$scrypt\$ln=([0-9]{1,2}),r=([0-9]{1,2}),p=([0-9]{1,2})"
                    r"\$([A-Za-z0-9+/]+)\$([A-Za-z0-9+/]+)")
COST, BLOCK, LANES = 14, 8, 1       # 16 MB of memory, some 50 ms
MOST_COST, MOST_MEMORY = 18, 300 << 20
CRYPT_DATA = 32768      # bytes of libcrypt's memory for one call
HASHED = re.compile(r"[!-~][ -~]{0,299}")


def fault_of_password(word: str) -> str:
    """Why nobody gets such a password, in English, or nothing. Those that clerks have go on."""
    if len(word) < LEAST_SIGNS:
        return f"a password has at least {LEAST_SIGNS} characters, and this one has {len(word)}"
    return "" if len(word) <= MOST_SIGNS else f"a password has at most {MOST_SIGNS} characters"


def is_pin(word: str) -> bool:
    """Whether this can be a PIN: four to eight digits."""
    return PIN.fullmatch(word) is not None


def plain_base64(data: bytes) -> str:
    """Base64 without the signs that fill its end."""
    return base64.b64encode(data).decode().rstrip("=")


def from_base64(text: str) -> bytes:
    """Bytes from base64 without the signs that fill its end. ValueError: it is none."""
    return base64.b64decode(text + "=" * (-len(text) % 4))


def scrypt(word: str, salt: bytes, costs: tuple[int, int, int], length: int) -> bytes:
    """The key of scrypt. `costs`: logarithm of N to base 2, r and p. ValueError: they are out of bounds."""
    cost, block, lanes = costs
    if not (1 <= cost <= MOST_COST and 1 <= block <= 16 and 1 <= lanes <= 4 and 16 <= length <= 64):
        raise ValueError("costs of scrypt")
    return hashlib.scrypt(word.encode(), salt=salt, n=1 << cost, r=block, p=lanes, maxmem=MOST_MEMORY,
                          dklen=length)


def hash_of(word: str) -> str:
    """A new hash of a password or PIN, with a salt of its own."""
    salt = secrets.token_bytes(16)
    key = scrypt(word, salt, (COST, BLOCK, LANES), 32)
    return f"$scrypt$ln={COST},r={BLOCK},p={LANES}${plain_base64(salt)}${plain_base64(key)}"


def by_libcrypt(word: str, hashed: str) -> str:
    """The hash that crypt(3) makes with the setting of another; empty where it makes none."""
    try:
        library = ctypes.CDLL("libcrypt.so.1")
    except OSError:
        return ""
    library.crypt_rn.restype = ctypes.c_char_p
    memory = ctypes.create_string_buffer(CRYPT_DATA)
    made: bytes | None = library.crypt_rn(word.encode(), hashed.encode(), memory, ctypes.c_int(CRYPT_DATA))
    return made.decode() if made else ""


def by_openssl(word: str, hashed: str) -> str:
    """The hash in Apache's way of MD5, `$apr1$SALT$..`."""
    words = ["openssl", "passwd", "-apr1", "-salt", hashed.split("$")[2], "-stdin"]
    done = subprocess.run(words, input=word + "\n", capture_output=True, text=True)
    return done.stdout.strip()


def by_sha1(word: str, hashed: str) -> str:
    """The hash as LDAP has it, `{SHA}..`, or with a salt `{SSHA}..`."""
    name, _, text = hashed.partition("}")
    salt = base64.b64decode(text)[20:] if name == "{SSHA" else b""
    digest = hashlib.sha1(word.encode() + salt).digest()
    return f"{name}}}{base64.b64encode(digest + salt).decode()}"


def made_again(word: str, hashed: str) -> str:
    """The hash of a word, made as another was made; empty where that is none. ValueError: it is malformed."""
    if found := SCRYPT.fullmatch(hashed):
        key, costs = from_base64(found[5]), (int(found[1]), int(found[2]), int(found[3]))
        made = scrypt(word, from_base64(found[4]), costs, len(key))
        return hashed[:found.start(5)] + plain_base64(made)
    if hashed.startswith("{PLAIN}"):
        return "{PLAIN}" + word
    if hashed.startswith(("{SHA}", "{SSHA}")):
        return by_sha1(word, hashed)
    return by_openssl(word, hashed) if hashed.startswith("$apr1$") else by_libcrypt(word, hashed)


def fits(word: str, hashed: str) -> bool:
    """Whether this is the password or PIN of a hash. No word fits an empty one."""
    if not hashed or not word or "\0" in word or len(word) > 1000:
        return False
    try:
        made = made_again(word, hashed)
    except (ValueError, IndexError, UnicodeError, OSError):
        return False
    return bool(made) and hmac.compare_digest(made.encode(), hashed.encode())


@functools.cache
def of_nobody() -> str:
    """A hash that no word fits: an unknown name is held against it, so that its answer takes the time of a
    known one."""
    return hash_of(secrets.token_hex())
