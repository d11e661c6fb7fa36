"""What the log of a finished match says of chips."""
from .faults import Unfinished


def hand_chips(path, names):
    """By name the chips that each won or lost in each hand, in the order of the hands."""
    chips = {name: [] for name in names}
    try:
        with open(path, encoding="ascii") as file:
            for line in file:
                if line.startswith("STATE:"):
                    *_, values, seated = line.rstrip("\n").split(":")
                    for name, value in zip(seated.split("|"), values.split("|")):
                        chips[name].append(int(value))
    except (OSError, ValueError, KeyError) as why:
        raise Unfinished(f"{path} isn't a log of {' and '.join(names)}: {why}") from why
    return [chips[name] for name in names]
