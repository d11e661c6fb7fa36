"""Rows of tests/doctor on stores, and on what is kept beside them."""
import shutil
import subprocess

import measuring
from doctor_machine import PROGRAM, ask, changed, machine, rows, running, test, wants_look
from measuring import want
from serving import waited


@test
def a_store_of_another_match(room):
    wants_look(room, "store", "another match, by its hands: 21, not 20", lambda at, port: changed(at, "hands 20", "hands 21", "stores/match.kept"))


@test
def a_damaged_kept_match(room):
    wants_look(room, "store", "damaged", lambda at, port: (at / "stores/match.kept").write_bytes(b""))


@test
def no_store_yet(room):
    def change(at, port):
        for name in ("node1.journal", "node1.kept", "match.kept"):
            (at / "stores" / name).unlink()

    advice = "put it there; only if this node never ran: copy match.kept of machine 0 there, then run holdem_table init match.toml 1"
    wants_look(room, "store", advice, change)


@test
def a_lost_store_is_never_made_anew(room):
    def change(at, port):
        (at / "stores/node1.peer0.kept").write_text("life " + "0" * 32 + "\n")
        (at / "stores/node1.journal").unlink()

    wants_look(room, "store", "never run init", change)


@test
def a_store_that_was_cut_off(room):
    def change(at, port):
        (at / "stores/node1.journal").write_bytes(b"HDJ2")

    def change_of_a_node_that_ran(at, port):
        (at / "stores/node1.peer0.kept").write_text("life " + "0" * 32 + "\n")
        (at / "stores/node1.journal").write_bytes(b"")

    wants_look(room / "new", "store", "has 4 bytes, and a store has 9 at least: if init was interrupted", change)
    wants_look(room / "ran", "store", "has 0 bytes, and a store has 9 at least: never run init", change_of_a_node_that_ran)


@test
def a_store_that_a_start_refuses(room):
    """Of another node, and of none; with a record of no kind, of another length, and cut off. The start refuses them too. What the
    format's page has is right."""
    ballot, deal, call = "01000000 0100", "04 00000001 00 00000000 01 01 00000000 09 21331a200018061c2e", "02 00000000 0000 01 00000000"
    whole = f"48444a32 01 03 0000 01 0006 {ballot} 01 001a {deal} 00"
    cases = [
        (whole.replace("32 01", "32 00", 1), "is the store of node 0 of 3"), (whole.replace("01 03 0000", "01 05 0000", 1), "is the store of node 1 of 5"),
        (whole.replace("48", "49", 1), "is no store"), (whole.replace(deal, deal.replace("04", "05", 1)), "is damaged at byte 20"),
        (whole.replace("0006", "0007", 1), "is damaged at byte 11"), (whole[:-3], "is damaged at byte 20"), (whole[:-5] + "00", "is damaged at byte 20"),
    ]
    at, _ = machine(room)
    path = at / "stores/node1.journal"
    for text, said in cases:
        path.write_bytes(bytes.fromhex(text))
        found = rows(ask(at, 1))["store"]
        want(found[0] == ("look", f"{path.relative_to(at)} {said}: never run init; put the right one back, or leave the node out"), f"{said}: {found}")
        told = measuring.run([PROGRAM, "node", "match.toml", "1"], cwd=at, stderr=subprocess.PIPE, text=True).stderr
        want(("62 BadRecord" if "damaged" in said else "61 BadHeader") in told, f"{said}: {told}")
    more = whole[:-3] + f"01 0026 04 00000001 00 00000001 02 01 00000000 09 21331a200018061c2e {call}"
    for text in (whole, whole + "ff", more + "00", more + "02 01 ffff"):
        path.write_bytes(bytes.fromhex(text))
        want(rows(ask(at))["store"][0] == ("ok", f"{path.relative_to(at)}, {len(bytes.fromhex(text))} bytes"), f"{rows(ask(at))['store']}")


@test
def a_game_that_is_not_that_of_the_stores(room):
    """Its values decide, not its spaces, comments, letters or order; the command that is told puts it back."""
    at, _ = machine(room)
    game = at / "n2.game"
    first = game.read_text()
    begin, *keys, end = first.upper().replace("=", "  =\t").splitlines(keepends=True)
    game.write_text("".join(["# ours\n\n", begin, *reversed(keys), end]))
    want(rows(ask(at))["game"] == [("ok", "n2.game")], f"{rows(ask(at))['game']}")
    game.write_text(first.replace("20000", "10000", 1))
    ((verdict, text),) = rows(ask(at, 1))["game"]
    want(verdict == "look" and "by which the stores were made" in text, text)
    subprocess.run(["sh", "-c", text.split("put that one back: ")[1]], cwd=at, check=True)
    want(rows(ask(at))["game"] == [("ok", "n2.game")] and game.read_text() == first, "the game isn't back")
    # Where match.kept is of another match, its game isn't this one's, and isn't to be put anywhere.
    kept = at / "stores/match.kept"
    kept.write_bytes(kept.read_bytes().replace(b"hands 20", b"hands 21", 1).replace(b"20000", b"10000", 1))
    found = rows(ask(at, 1))
    want(found["game"] == [("ok", "n2.game")] and "another match, by its hands: 21, not 20" in found["store"][-1][1], f"{found}")


@test
def a_lost_folder_of_stores_is_never_made_anew(room):
    at, _ = machine(room)
    shutil.rmtree(at / "stores")
    want(any("mkdir stores" in text for _, text in rows(ask(at, 1))["room"]), "no new folder is asked for")
    (at / "logs/node1.log").write_text("# name/game/hands m n2.game 20\n")
    found = rows(ask(at, 1))
    want(any("never run init" in text for _, text in found["store"]), f"{found['store']}")
    want(not any("mkdir stores" in text for _, text in found["room"]), f"{found['room']}")


@test
def a_store_lost_with_its_node_is_never_made_anew(room):
    """The log of this match shows that the node ran; that of another match, and a file of another name, don't."""
    cases = (20, "node1.log", "never run init"), (20, "node1.log.3", "never run init"), (21, "node1.log", "only if this node never ran"), (20, "node1.logs", "only if this node never ran")
    for hands, name, said in cases:

        def change(at, port, hands=hands, name=name):
            (at / "logs" / name).write_text(f"# name/game/hands m n2.game {hands}\n")
            (at / "stores/node1.journal").unlink()

        wants_look(room / f"{hands}.{name}", "store", said, change)


LIFE = "life 0123456789abcdef0123456789abcdef\n"


@test
def a_damaged_kept_store_of_a_peer(room):
    for number, text in enumerate(("", LIFE + f"{'promisex 4.0':25}\n", LIFE + f"{'promised 4.0':24}\n", LIFE + f"{'promised 4':25}\n")):

        def change(at, port, text=text):
            (at / "stores/node1.peer2.kept").write_text(text)

        wants_look(room / f"{number}", "store", "node1.peer2.kept is damaged: its first line is the line life of node2.kept on machine 2", change)


@test
def a_kept_store_of_a_peer_whose_promise_is_known(room):
    """Its second line has spaces behind the ballot."""
    at, _ = machine(room)
    (at / "stores/node1.peer2.kept").write_text(LIFE + f"{'promised 4294967295.2':25}\n")
    want(all(verdict == "ok" for verdict, _ in rows(ask(at))["store"]), f"{rows(ask(at))['store']}")


@test
def a_damaged_number_of_logs(room):
    def change(at, port):
        (at / "logs/node1.logs.kept").write_text("life\n")

    wants_look(room, "store", "delete it, and the next start makes it again", change)


@test
def kept_files_of_a_node_that_ran_are_whole(room):
    """What the program itself keeps is none that it tells of."""
    at, _ = machine(room)
    other = room / "m/machine2"
    subprocess.run([PROGRAM, "init", "match.toml", "2"], cwd=other, stderr=subprocess.DEVNULL, check=True)
    with running(other, 2), running(at, 1):
        waited(lambda: (at / "stores/node1.peer2.kept").is_file() and (at / "logs/node1.logs.kept").is_file(), "what is kept")
    want([verdict for verdict, _ in rows(ask(at))["store"]] == ["ok", "ok"], f"{rows(ask(at))['store']}")


def journal(*payloads, version=2):
    """A journal of node 1 of 3 with these records, by their hex digits."""
    records = [bytes.fromhex(payload) for payload in payloads]
    return b"HDJ%d\1\3\0\0" % version + b"".join(b"\1" + len(record).to_bytes(2, "big") + record for record in records) + b"\0"


BALLOT, SLOT, DEAL = "00000001 00", "00000000", "01 00000000 09 21331a200018061c2e"
CALL, RAISE, AWAY = "02 00000000 0000 01 00000000", "02 00002710 00ff 02 7fffffff", "03 00000000 00ff"
RIGHT = [f"01 {BALLOT}", f"04 {BALLOT} {SLOT} 02 {DEAL} {CALL}", f"04 00000002 06 003d08ff 01 {AWAY}"]


@test
def a_record_whose_bytes_were_changed(room):
    """Each byte of a record has a range, and the start refuses what is beyond; its length says nothing of that. A record of version 1
    may not follow one of version 2, and the other way round."""
    changes = [
        (0, "01 00000000 00"), (0, "01 00000001 07"), (1, RIGHT[1].replace(SLOT, "003d0900")), (1, RIGHT[1].replace(" 02 ", " 41 ", 1)), (1, RIGHT[1].replace(" 02 ", " 01 ", 1)),
        (1, RIGHT[1].replace("21331a", "213321")), (1, RIGHT[1].replace("21331a", "21341a")), (1, RIGHT[1].replace("09 21", "0a 21")), (1, RIGHT[1].replace(CALL, CALL.replace("02 ", "04 ", 1))),
        (1, RIGHT[1].replace(CALL, RAISE)), (1, RIGHT[1].replace(CALL, RAISE.replace("2710", "270f").replace("7fffffff", "80000000"))), (1, RIGHT[1].replace("01 00000000", "01 00000001", 2)),
        (1, RIGHT[1].replace("0000 01", "0100 01")), (1, RIGHT[1].replace("0000 01", "0000 03")), (2, f"04 00000002 06 003d08ff 02 {AWAY} {AWAY}"), (2, f"04 00000002 06 003d08ff 00"),
        (2, "03"), (2, f"02 {BALLOT} {SLOT} {CALL}"),
    ]  # fmt: skip
    at, _ = machine(room)
    path = at / "stores/node1.journal"
    fine = [*RIGHT[:2], RIGHT[2].replace("00ff", "0000")]
    path.write_bytes(journal(*RIGHT))
    want(rows(ask(at))["store"][0][0] == "ok" and not is_refused(at), f"a right store: {rows(ask(at))['store']}")
    for place, payload in changes:
        path.write_bytes(journal(*fine[:place], payload, *fine[place + 1 :]))
        wanted = 8 + sum(3 + len(bytes.fromhex(it)) for it in fine[:place]) + 3
        found = rows(ask(at, 1))["store"][0]
        want(found[0] == "look" and f"is damaged at byte {wanted}: never run init" in found[1], f"{payload}: {found}")
        want(is_refused(at), f"{payload}: the start takes it")


@test
def a_journal_of_version_1(room):
    at, _ = machine(room)
    path = at / "stores/node1.journal"
    vote = f"02 {BALLOT} {SLOT} {DEAL}"
    cases = [([RIGHT[0], vote], True), ([RIGHT[0], vote, "03", RIGHT[1]], True), ([RIGHT[1]], False), ([vote, "03", vote], False), ([vote, "03", "03"], False), (["01 00000001 05"], False)]
    for payloads, is_right in cases:
        path.write_bytes(journal(*payloads, version=1))
        found = rows(ask(at))["store"][0][0]
        want((found == "ok") == is_right, f"{payloads}: {found}")
        want(is_refused(at) != is_right, f"{payloads}: the start says otherwise")


def is_refused(at):
    """Whether a start refuses the store; one that doesn't is ended."""
    with subprocess.Popen([PROGRAM, "node", "match.toml", "1"], cwd=at, stdout=subprocess.DEVNULL, stderr=subprocess.PIPE, text=True) as node:
        try:
            said = next(line for line in node.stderr if ": started" in line or line[0].isdigit())
            want(": started" in said or "62 BadRecord" in said, f"the start says {said}")
            return "62 BadRecord" in said
        finally:
            node.kill()


@test
def a_kept_store_that_is_damaged(room):
    def change(at, port):
        path = at / "stores/node1.kept"
        path.write_text(path.read_text().replace("life ", "life  "))

    wants_look(room, "store", "node1.kept is damaged, or of another node: never run init", change)
