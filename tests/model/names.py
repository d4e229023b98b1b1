"""Names, paths and altitudes: which texts are ones, and which altitude is higher."""
import fractions
import re

from status import BAD_ALTITUDE, BAD_NAME, BAD_PATH, Refused


def read_name(text):
    """1 to 32 letters, digits, `_`, `-`; else 3."""
    if not re.fullmatch(r"[A-Za-z0-9_-]{1,32}", text):
        raise Refused(BAD_NAME)
    return text


def read_path(text):
    """1 to 255 characters from the space to `~`, in parts that `/` divides, no part empty, `.` or `..`; else 15."""
    if not re.fullmatch(r"[ -~]{1,255}", text) or any(part in ("", ".", "..") for part in text.split("/")):
        raise Refused(BAD_PATH)
    return text


def read_altitude(text):
    """The decimal value, of any precision, of 1 to 64 characters: digits with at most one point, at least one digit; else 2."""
    if len(text) > 64 or not re.fullmatch(r"[0-9]+\.?[0-9]*|\.[0-9]+", text):
        raise Refused(BAD_ALTITUDE)
    whole, _, part = text.partition(".")
    return fractions.Fraction(int(whole + part), 10 ** len(part))
