"""Numbers and times as words of a sentence, and texts of others."""


def printable(text):
    """A text that does nothing to a terminal, whoever it is of."""
    return "".join(letter if letter.isprintable() or letter == "\n" else f"\\x{ord(letter):02x}" for letter in text)


def counted(count, what, many=None):
    """A number with what it counts: 1 group, 2 groups. `many` is the plural, if it isn't made by an s."""
    return f"{count} {what}" if count == 1 else f"{count} {many or what + 's'}"


def of_all(count, whole, what, many=None):
    """A number of all that there are: 1 of 2 groups."""
    return f"{count} of {counted(whole, what, many)}"


def in_words(seconds):
    """A time for a reader."""
    hours, rest = divmod(int(seconds), 3600)
    return f"{hours} h {rest // 60} min" if hours else f"{rest // 60} min {rest % 60} s" if rest >= 60 else f"{rest} s"
