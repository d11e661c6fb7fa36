"""Why a command of tools/league ends early. The text of each is a plain sentence, the status is the command's."""


class Stopped(Exception):
    status = 1


class Unfinished(Stopped):
    """Something outside the file is in the way; the command may be given again."""


class Wrong(Stopped):
    """The league's file or the command line is wrong."""

    status = 2


class Busy(Stopped):
    """Another process has the match, or the league."""

    status = 4


class Interrupted(BaseException):
    """A signal asked this process to end. It passes by handlers of errors, as KeyboardInterrupt does."""
