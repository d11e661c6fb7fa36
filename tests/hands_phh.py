"""A reader of the Poker Hand History format (PHH), by another author than tools/hands and without its code. It plays each hand again.

The format's paper (Kim, 'Recording and Describing Poker Hands', 2024) and pokerkit, its reference reader, weren't at hand: what
follows is from memory.
- A file of several hands is TOML with a table for each. `variant` is NT for no-limit and FT for fixed-limit Texas hold'em.
- Players p1, p2, .. sit in order from the small blind. Where two play, p1 is the big blind and p2 the button, and yet
  blinds_or_straddles has the small blind first. Before the flop who sits behind the last of the greatest blinds acts first.
- `d dh pN CARDS` deals hole cards, `d db CARDS` the board; an unknown card is ??. `pN f` folds, `pN cc` checks or calls, `pN cbr
  AMOUNT` bets or raises so that the player has AMOUNT in this round, `pN sm CARDS` shows. All hole cards come first.
- Cards are shown once no more bets can be made, even if board cards are still to come.
"""
import re
import tomllib

from hands_rules import CARD, Game, Hand, Read
from measuring import Wrong, want

FIELDS = {
    "variant", "antes", "blinds_or_straddles", "starting_stacks", "actions", "event", "hand", "seats", "seat_count", "table", "players",
    "finishing_stacks",
}
SIZES = {"NT": {"min_bet"}, "FT": {"small_bet", "big_bet"}}


def take(actions, form):
    """The groups of the next action, which must have this form."""
    found = actions and re.fullmatch(form, actions[0])
    want(found, f"{actions[:1]} where {form} is due")
    del actions[0]
    return found.groups()


def game_of(fields):
    """The game by position, and what the fields must have of it."""
    count, variant = len(fields["players"]), fields["variant"]
    for key in ("antes", "blinds_or_straddles", "starting_stacks", "seats", "finishing_stacks"):
        numbers = fields[key]
        want(len(numbers) == count and all(type(number) is int and number >= 0 for number in numbers), f"{key} of {count} players: {numbers}")
    want(not any(fields["antes"]) and fields["seat_count"] == count, "antes or seat_count")
    blinds = fields["blinds_or_straddles"][::-1] if count == 2 else fields["blinds_or_straddles"]
    want(variant == "FT" or fields["min_bet"] == max(blinds), "min_bet isn't the greatest blind")
    sizes = [fields["small_bet"]] * 2 + [fields["big_bet"]] * 2 if variant == "FT" else []
    last = max(range(count), key=lambda place: (blinds[place], place))
    return Game(blinds, fields["starting_stacks"], sizes, (last + 1) % count)


def deal_board(hand, actions):
    cards = take(actions, "d db " + f"({CARD})" * hand.lacks_board())
    hand.see(cards)
    hand.board += cards


def play(hand, actions):
    """Plays the actions, each of which must be one that is due."""
    for player in hand.players:
        hole, = take(actions, rf"d dh p{player + 1} ({CARD}{CARD}|\?\?\?\?)")
        if hole != "????":
            hand.hold(player, hole)
    while hand.waiting:
        if hand.lacks_board():
            deal_board(hand, actions)
        word, amount = take(actions, rf"p{hand.waiting[0] + 1} (f|cc|cbr ([1-9]\d*))")
        if amount:
            hand.raise_to(hand.before + int(amount))
        else:
            hand.fold() if word == "f" else hand.call()
    for player in hand.showing():
        hand.hold(player, *take(actions, f"p{player + 1} sm ({CARD}{CARD})"))
    while hand.lacks_board():
        deal_board(hand, actions)
    want(not actions, f"more actions: {actions}")


def hand_of(fields, start):
    """One hand; player p1 has the position `start` in the log."""
    want(set(fields) == FIELDS | SIZES.get(fields.get("variant"), set()), f"fields: {sorted(fields)}")
    game, number, names = game_of(fields), fields["hand"], fields["players"]
    hand = Hand(game)
    play(hand, [*fields["actions"]])
    finishing = [stack + payoff for stack, payoff in zip(game.stacks, hand.payoffs())]
    want(fields["finishing_stacks"] == finishing, f"finishing stacks {fields['finishing_stacks']}, not {finishing}")
    seats = [(place + start + number) % len(names) + 1 for place in hand.players]
    want(fields["seats"] == seats and fields["event"] == fields["table"], f"seats {fields['seats']}, event or table")
    return Read(fields["event"], game, hand.line(number, names, start))


def hands_in(text, start=0):
    """Each hand of a file of several, in order: the tables are numbered from 1 on."""
    try:
        tables = tomllib.loads(text)
    except tomllib.TOMLDecodeError as why:
        raise Wrong(f"no TOML: {why}") from why
    want([*tables] == [str(number + 1) for number in range(len(tables))], f"tables {[*tables][:3]} ..")
    return [hand_of(fields, start) for fields in tables.values()]
