"""Which cards a match has: all seatings of a meeting the same ones, which nobody can know beforehand."""
import hashlib
import hmac
import secrets

from .files import put_once

SECRET_BYTES = 32


def path(league):
    return league.folder / "secret"


def draw(league):
    """Draws the league's secret, where it has none yet."""
    put_once(path(league), secrets.token_bytes(SECRET_BYTES))


def secret(league):
    """The league's secret."""
    return path(league).read_bytes()


def digest(league):
    """What tells the league's secret from others, and nothing of it; none where it is gone."""
    return hashlib.sha256(secret(league)).hexdigest() if path(league).exists() else None


def seed(secret, players, meeting):
    """The seed of a meeting of these players: the first 63 bits of HMAC-SHA256 over their sorted names and its number."""
    text = "|".join([*sorted(players), str(meeting)])
    return int.from_bytes(hmac.digest(secret, text.encode(), hashlib.sha256)[:8], "big") >> 1
