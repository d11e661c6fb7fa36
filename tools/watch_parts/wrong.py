"""What ends tools/watch."""


class Wrong(Exception):
    """A file or a command line isn't right: status 2."""
