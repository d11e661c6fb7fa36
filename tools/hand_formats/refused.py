"""Why hands aren't written in a format."""


class Refused(Exception):
    """A format has no way to say something of a game, in a sentence."""
