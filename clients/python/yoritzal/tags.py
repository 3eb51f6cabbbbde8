"""Tags: HMAC-SHA-256 by a key that both ends have."""
import hmac

TAG_BYTES = KEY_BYTES = 32


def tag(key, text):
    if len(key) != KEY_BYTES:
        raise ValueError(f"a key of {len(key)} bytes")
    return hmac.digest(key, text, "sha256")


def is_tag(found, key, text):
    """Whether it is the tag of the text, in a time that does not tell where it differs."""
    return hmac.compare_digest(bytes(found), tag(key, text))


def tagged(key, text):
    """The text with its tag behind it."""
    return text + tag(key, text)
