"""Wrong servers that tests/simulation --planted is to find: what is wrong, the edit of one file that makes it (path below crates/, old
and new text), and the rule that is to find it. They aren't proved, so they can't be built: `rt try` runs each, over a copy of the
sources. One that does all that the server does fails too."""
import hashlib
import itertools
import multiprocessing
import shutil
import subprocess
import sys
import tempfile
from pathlib import Path

from simulation_rules import Checker
from simulation_runs import kept_scripts, watched
from simulation_scripts import drawn
from simulation_trace import TOP, Wrong

# Where wrong servers are tried and there are no programs of them; and by so many seeds.
TRIED, PLANTED_SEEDS = "by rt try", 200

# Hands of a match by which a wrong server is tried: `rt try` gives no answer of more than 1 MiB. Where a store is lost bots think so long at
# least, in microseconds: the match isn't over before that.
HANDS, SLOW = 5, 300_000
PLANTED = [
    ("a vote is said before its second sync", "promise_store/src/appending.rt", "    write_through(disk, gate, &[1])\n", "    disk.write_at(gate, &[1])\n", "backed"),
    ("a record is written at once with its gate", "promise_store/src/appending.rt", "    write_through(disk, behind, text)?;\n", "    disk.write_at(behind, text)?;\n", "store"),
    ("a promise isn't stored", "promise_store/src/store.rt", "        let text: &[u8] = &bytes;\n", "        let text: &[u8] = &bytes;\n        if text.len() < 12 { self.held.note(self.gate, text.len() - 3, addition); return Ok(()); }\n", "backed"),
    ("a line is told to another seat", "node_seats/src/seats.rt", "                seat.tell(&mut self.line, number, table)\n", "                seat.tell(&mut self.line, if number < 2 { number ^ 1 } else { number }, table)\n", "one-list"),
    ("text is left out of the log", "node_service/src/desk.rt", "        Reader::Log => log(wire, log_failed, text),\n", "        Reader::Log => if text.len() > 89 { log(wire, log_failed, text) },\n", "one-log"),
    ("an order for who isn't late", "node_service/src/ticking.rt", "            time: self.moment(),\n            patience: patience.min(LONGEST_PATIENCE),\n", "            time: self.moment(),\n            patience: patience.min(LONGEST_PATIENCE) / 2,\n", "late"),
    ("no tick at all", "node_service/src/ticking.rt", "                self.tick();\n                0\n", "                50_000\n", "gap"),
    ("a wait that never doubles", "clockwork/src/waits.rt", "    wait.max(most.min(wait * times(ticks)))\n", "    let _ = (most, times(ticks));\n    wait\n", "ballots"),
    ("a connection is told of nobody", "node_service/src/taking.rt", "        let _ = self.desk.company.tell(ServerNotice::Joined { peer, life });\n", "        let _ = peer;\n", "joined"),
    ("a call is made twice", "node_service/src/local_node.rt", "        (self.desk.step(event), before)\n", "        let _first = self.desk.step(event);\n        (self.desk.step(event), before)\n", "twice"),
    ("an act that goes on is dropped", "node_service/src/desk.rt", "    company.send(to, frame, now);\n", "    if frame.len() < 6 || frame[5] != 8 { company.send(to, frame, now); }\n", "gap"),
    ("a quorum of two less", "paxos_wire/src/node_set.rt", "        for node in 0..nodes as usize {\n            if self.marks[node] {\n", "        for node in 0..nodes as usize {\n            if self.marks[node] || node < 2 {\n", "quorum"),
    ("a bot that names a line is told the newest", "node_service/src/seat_lines.rt", "        NamedLine::Told(at) => Start::At(at),\n", "        NamedLine::Told(_) => Start::At(newest_place(table)),\n", "no-gap"),
    ("the end is told though the match goes on", "node_service/src/seat_lines.rt", "    table.over() && !at.has_lines(table)\n", "    let _ = (table, at);\n    true\n", "word"),
    ("a line without an end is read on", "seat_session/src/line_buffer.rt", "            None if waiting.len() <= LONGEST_LINE => Front::Partial,\n            _ => Front::TooLong,\n", "            None => Front::Partial,\n            _ => Front::TooLong,\n", "queue"),
    ("a bot is told lines however many bytes wait", "node_seats/src/limits.rt", "pub const BACKLOG: usize = 1 << 16;\n", "pub const BACKLOG: usize = 1 << 30;\n", "queue"),
    ("what waited for a peer stays in memory", "node_links/src/kept_frame.rt", "        let bytes = Vec::from_slice(alloc, bytes)?;\n", "        let lost = Vec::from_slice(alloc, &[1u8; MOST_FRAME])?;\n        let _lost = unsafe { std::mem::ManuallyDrop::new_unchecked(lost) };\n        let bytes = Vec::from_slice(alloc, bytes)?;\n", "memory"),
    ("a second connection of a node is taken beside its first", "node_links/src/judging.rt", "    if known.is_here {\n", "    if known.is_here && hello.ends.nodes > 7 {\n", "old"),
    ("an act is a call though its bot raised", "seat_session/src/saying.rt", "            action: answer.action,\n", "            action: if answer.play.actions().len() > 2 { betting::Action::Call } else { answer.action },\n", "said"),
    ("all hole cards are shown at a showdown", "matchstate/src/sight.rt", "has_come_to_showdown(play) && !play.folded(position)", "has_come_to_showdown(play)", "one-list"),
    ("a default action is ordered where the bot's answer waits", "node_service/src/ticking.rt", "        matches!(self.desk.member.node().pending(), Some(Command::Act { .. }))\n", "        matches!(self.desk.member.node().pending(), Some(Command::Act { hand, .. }) if hand > 9_999)\n", "answered"),
    ("a seat is given up though the match file says that all wait", "node_service/src/ticking.rt", "            gives_up: terms.gives_up,\n", "            gives_up: true,\n", "late"),
    ("a deal isn't of the node's own seed", "dealer_kind/src/source.rt", "            Source::Seed(seed) => Some(draw(*seed, hand, players)),\n", "            Source::Seed(seed) => Some(draw(*seed ^ 64, hand, players)),\n", "deal"),
    ("a node reads nothing of a seat behind the thirtieth command", "node_service/src/taking.rt", "        if has_bit(*taken, at) {\n            return false;\n        }\n", "        if has_bit(*taken, at) {\n            return false;\n        }\n        if at == 0 && self.watch.seen.front > 30 {\n            return true;\n        }\n", "heard"),
    ("a seat is told no line behind the second hand", "node_seats/src/seats.rt", "                if !seat.bot.sits {\n                    return true;\n                }\n                seat.tell(", "                if !seat.bot.sits || (number == 1 && table.dealt() > 2) {\n                    return true;\n                }\n                seat.tell(", "shown"),
    ("a promise leaves out the vote at the first slot", "acceptor/src/telling.rt", "        let found = vote_at(store, slot)?;\n        push_entry(", "        let found = vote_at(store, slot)?;\n        if place == 0 {\n            continue;\n        }\n        push_entry(", "told"),
    ("a leader takes what the node 0 alone told it", "proposer/src/batch.rt", "        if let Some(entry) = self.told(nodes, slot) {\n", "        if let Some(entry) = self.told(nodes.min(1), slot) {\n", "value"),
    ("any token is taken for the seat's", "node_seats/src/guest.rt", "            Some(digest) => shows_token(self.line.as_slice(), digest),\n", "            Some(digest) => shows_token(self.line.as_slice(), digest) || self.line.len() > 64,\n", "token"),
    ("the node 2 takes in no votes of others", "node_service/src/taking.rt", "            Notice::Frame { from, frame } => {\n                self.take_frame(", "            Notice::Frame { from, frame } => {\n                if self.desk.member.number() == 2 && frame.as_slice().len() > 5 && frame.as_slice()[5] > 4 {\n                    return Taken::One;\n                }\n                self.take_frame(", "behind"),
    ("a node whose store was replaced is taken in", "node_links/src/judging.rt", "    if is_other(hello.kept, own.life) {\n        return Err(PeerFault::StoreReplaced(Whose::Own));\n    }\n    if is_replaced(known.lives, hello.life) {\n        return Err(PeerFault::StoreReplaced(Whose::Other));\n    }\n", "    let _ = (is_other(hello.kept, own.life), is_replaced(known.lives, hello.life));\n", "replaced"),
    ("a bot that asked is let go of without a word where there is no quorum", "node_service/src/seat_lines.rt", "        return seats.part(seat, Parting::Wait);\n", "        return false;\n", "waits"),
    ("who showed his token waits behind the thirtieth command", "node_service/src/taking.rt", "        if takes_in { 0 } else { u16::MAX }\n", "        if takes_in && self.watch.seen.front < 30 { 0 } else { u16::MAX }\n", "taken"),
]
# Those that small scripts don't show, or whose memory isn't seen, by `rt try`: they are tried by programs alone.
BY_PROGRAMS = {16, 17}


def plant(number, copy):
    """Makes the wrong server of a number, from 1, in a copy of the repository; what is wrong."""
    name, path, old, new, _ = PLANTED[number - 1]
    file = copy / "crates" / path
    text = file.read_text()
    if text.count(old) != 1:
        sys.exit(f"tests/simulation: {path} doesn't have once what is to be replaced for: {name}")
    file.write_text(text.replace(old, new))
    return name


def small(seed, is_calm):
    """The script of a seed, with few hands."""
    first, *lines = drawn(seed, is_calm)
    words = first.split(" ")
    words[2] = str(min(int(words[2]), HANDS))
    is_lost = any(words[1] == "store" and words[3] != "3" for words in (line.split(" ") for line in lines))
    return [" ".join(words), *(map(slowed, lines) if is_lost else lines)]


def slowed(line):
    """The line of a script, where it is a bot's with one that thinks for long."""
    moment, word, *numbers = line.split(" ")
    if word == "bot":
        numbers[2] = str(max(int(numbers[2]), SLOW))
    return " ".join([moment, word, *numbers])


def tried(number, seeds, is_calm):
    """Runs the server of a number by small scripts of seeds, of 0 the right one: each script and its trace, as far as there is one."""
    with tempfile.TemporaryDirectory(prefix="planted-") as folder:
        copy = Path(folder)
        shutil.copytree(TOP / "crates", copy / "crates", ignore=shutil.ignore_patterns("out", "must-fail", "mutants"))
        for name in ("crates.txt", "HANDLES"):
            shutil.copy(TOP / name, copy)
        if number:
            plant(number, copy)
        cases = copy / "cases"
        cases.mkdir()
        scripts = {str(seed): small(seed, is_calm) for seed in seeds}
        for name, script in scripts.items():
            (cases / name).write_text("\n".join(script) + "\n")
        games = sorted({script[0].split(" ")[6] for script in scripts.values()})
        data = [word for game in games for word in ("--data", f"{game}={TOP / game}")]
        ran = subprocess.run(
            ["rt", "try", "--steps", "1", "--seconds", "60", "--cases", str(cases), *data, "--", "simulate"],
            cwd=copy / "crates/workload", stdout=subprocess.PIPE, stderr=subprocess.PIPE, encoding="latin-1",
        )
    traces, name = {}, None
    for line in ran.stdout.splitlines():
        if line.startswith("== "):
            name = line[3:]
            traces[name] = []
        elif name:
            traces[name].append(line)
    if not traces:
        sys.exit(f"tests/simulation: rt try ran nothing: {ran.stderr[-1000:]}")
    for name, script in scripts.items():
        lines = traces.get(name, ())
        if len(lines) > 1:
            yield int(name), script, "\n".join(lines[1:]) + "\n"


def runs_of(program, number, seeds, is_calm):
    """The scripts by which a server is tried, each with its name and its trace, and with the memory that its run took, where a program
    runs it: of seeds, and behind them those that are kept. `rt try` runs those of the seeds."""
    if program is None:
        for seed, script, text in tried(number, seeds, is_calm):
            yield f"seed {seed}", script, text, None
        return
    for name, script in itertools.chain(((f"seed {seed}", drawn(seed, is_calm)) for seed in seeds), kept_scripts()):
        yield name, script, *watched(program, script)


def sum_of(text):
    return hashlib.sha256(text.encode()).digest()


def first_found(job):
    """What the first script finds of a wrong server, by whose name, and whether any trace so far was another than the right server's."""
    program, number, seeds, is_calm, right = job
    differs = False
    for name, script, text, peak in runs_of(program, number, seeds, is_calm):
        differs = differs or right.get(name) != sum_of(text)
        try:
            Checker(script, text, peak).run()
        except Wrong as wrong:
            return wrong.rule, f"{name}: {wrong.words[:150]}", differs
    return None, None, differs


def told(number, found):
    """What is printed of a wrong server, and whether it was found as it is to be."""
    (name, *_, wanted), (rule, words, differs) = PLANTED[number - 1], found
    if rule is not None:
        return f"{number}. {name}: found by {rule}{'' if rule == wanted else f', and is to be by {wanted}'}, {words}", rule == wanted
    return f"{number}. {name}: {'not found' if differs else 'it does nothing: its traces are those of the right server'}", False


def planted(options):
    """The first script by which each wrong server is found, which is to be by its rule; the right one passes them all."""
    folder, first = Path(options.planted).resolve() if options.planted != TRIED else None, options.first or 1
    seeds = range(first, first + (options.count or (PLANTED_SEEDS if folder is None else 1_000)))
    programs = {number: folder and str(folder / str(number)) for number in range(len(PLANTED) + 1) if folder or number not in BY_PROGRAMS}
    right, wrong = {}, []
    for name, script, text, peak in runs_of(programs.pop(0), 0, seeds, options.calm):
        right[name] = sum_of(text)
        try:
            Checker(script, text, peak).run()
        except Wrong as why:
            wrong.append(f"the server as it is, {name}: {why}")
    print("\n".join(wrong) or f"the server as it is passes {len(right)} scripts", flush=True)
    results = [not wrong]
    with multiprocessing.Pool(options.jobs) as pool:
        jobs = [(program, number, seeds, options.calm, right) for number, program in programs.items()]
        for (_, number, *_), found in zip(jobs, pool.imap(first_found, jobs)):
            words, is_found = told(number, found)
            print(words, flush=True)
            results.append(is_found)
    return sum(results), len(results) - sum(results)
