"""The script of `hand` that plays the match of a log again, made of the log's lines."""
import re

CARDS = [rank + suit for rank in "23456789TJQKA" for suit in "cdhs"]
STATE = re.compile(r"STATE:\d+:([fcr\d/]*):([2-9TJQKAcdhs|]*)([2-9TJQKAcdhs/]*):[-\d|]+:([\w.|-]+)", re.A)


def deal_of(holes, board):
    """All cards of a hand, as a script has them."""
    shown = re.findall("..", board.replace("/", ""))
    used = {*re.findall("..", holes.replace("|", "")), *shown}
    cards = shown + [card for card in CARDS if card not in used][: 5 - len(shown)]
    return f"{holes}/{''.join(cards[:3])}/{cards[3]}/{cards[4]}"


def script_of(lines):
    """The script's lines. In the first hand positions are seats, so its names are those of the seats in order."""
    is_first = True
    for found in filter(None, map(STATE.fullmatch, lines)):
        betting, holes, board, names = found.groups()
        if is_first:
            yield f"names {names}"
        is_first = False
        yield f"deal {deal_of(holes, board)}"
        yield from re.findall(r"[fc]|r\d*", betting)
