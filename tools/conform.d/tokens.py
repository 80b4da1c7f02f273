"""Keyed hashes of return routability: keys, authenticators and, for a correspondent of our own, tokens (RFC 6275 sections 5.2.5 and 6.2.7)."""
import hashlib
import hmac

HOME, CAREOF = 0, 1


def token(kcn, address, nonce, kind):
    """A keygen token, of kind HOME or CAREOF."""
    return hmac.new(kcn, address + nonce + bytes([kind]), hashlib.sha1).digest()[:8]


def kbm(home, careof=b""):
    """The binding management key; for a deletion, of the home token alone."""
    return hashlib.sha1(home + careof).digest()


def authenticator(key, careof, peer, message):
    """Over a message with its Binding Authorization Data option, whose last 12 bytes and checksum do not count."""
    data = careof + peer + message[:4] + b"\0\0" + message[6:-12]
    return hmac.new(key, data, hashlib.sha1).digest()[:12]
