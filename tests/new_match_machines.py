"""Rows of tests/new_match on other machines: what `run` types there, for each of its words."""
import re
import shutil
import subprocess
import time

import measuring
from measuring import in_time, want
from new_match_made import Machines, at_last, mode, new, run, started, test
from serving import waited

SSH = "ssh|-o|ConnectTimeout=5|-o|ServerAliveInterval=5|"


@test
def machines_are_reached_by_ssh(room):
    """What the script types for other machines, carried out here in their place."""
    machines = Machines(room)
    for word in ("copy", "init", "start", "stop"):
        machines.run(word)
    calls = machines.calls()
    scp = [call.split("|")[-3:-1] for call in calls if call.startswith("scp|")]
    want([to for _, to in scp] == [f"op@10.0.0.1:{room}/srv/machine0/", f"10.0.0.1:{room}/srv/machine1/", f"10.0.0.1:{room}/srv/machine2/"], f"{scp}")
    want(sum(call.startswith(f"{SSH}-t|op@10.0.0.1|") for call in calls) == 3, f"{calls}")
    want(calls.count(f"sudo|systemctl|enable|--now|{room}/srv/machine1/holdem-m-1.service|") == 1, f"{calls}")
    want(all(machines.store(i).is_file() for i in range(3)), "no stores")
    again = machines.run("copy", status=1)
    want("machines behind it" in again.stderr and again.stdout.count("run: ") == 1, again.stderr)
    # What failed at one machine is done there alone afterwards, and what isn't started has no unit that could be ended.
    want(f"type: {room}/m/run copy 0;" in again.stderr, again.stderr)
    shutil.rmtree(room / "srv/machine1")
    for words in (["copy"], ["init", "--never-ran"], ["start"], ["stop"]):
        alone = machines.run(words[0], "1", *words[1:])
        want(alone.stdout.count("run: ") == (2 if words == ["stop"] else 1) and f"{' '.join(words)} machine 1 (10.0.0.1)" in alone.stdout, alone.stdout)
    want(machines.store(1).is_file() and "run: it doesn't run" in alone.stdout, alone.stdout)


@test
def a_wrong_word_is_told_the_right_ones(room):
    machines = Machines(room)
    wrong = [[], ["stopp"], ["copy", "3"], ["copy", "1", "2"], ["copy", ""], ["copy", "12"], ["copy", "off"], ["start", "--never-ran"], ["init", "--never-ran"]]
    for words in (*wrong, ["status", "1"], ["firewall", "off", "off"], ["copy", "x:1"]):
        want("usage" in machines.run(*words, status=2).stderr, f"{words}")
    want(not (room / "calls").exists(), "a wrong word did something")


@test
def a_machine_that_is_gone_keeps_no_other(room):
    """One that answers nothing costs as long as it takes to connect, and the others are stopped, started and looked at."""
    machines = Machines(room)
    machines.run("copy")
    machines.run("init")
    machines.stand_in("ssh", 'case "$target" in op@*) case $(tail -n 1 "$CALLS") in *ConnectTimeout=5*) sleep 0.5 ;; *) sleep 132 ;; esac; exit 255 ;; esac')
    begun = time.monotonic()
    for word in ("stop", "start", "notes", "firewall"):
        lost = machines.run(word, status=1)
        want(lost.stdout.count(f"run: {word} machine ") == 3 and lost.stderr.count("failed (status 255)") == 1, lost.stdout + lost.stderr)
    in_time(time.monotonic() - begun < 60, "it hangs at a machine that answers nothing")


@test
def a_store_is_made_once(room):
    """Behind a lost disk no second one is made, but by who says that the node never ran."""
    machines = Machines(room)
    machines.run("copy")
    machines.run("init")
    shutil.rmtree(room / "srv/machine1")
    machines.run("copy", "1")
    refused = machines.run("init", "1", status=1)
    want("lacks the promises" in refused.stderr and "leave the node out" in refused.stderr and f"type: {room}/m/run init 1 --never-ran" in refused.stderr, refused.stderr)
    want(not machines.store(1).is_file(), "a second store was made")
    want("Once that is mended" not in refused.stderr and not machines.run("init", status=1).stderr.count("Once that is mended"), "a refusal is told to be mended")
    machines.run("init", "1", "--never-ran")
    want(machines.store(1).is_file(), "no store")
    # Its end is known again.
    want("lacks the promises" in machines.run("init", "1", status=1).stderr, "it isn't refused")


@test
def an_init_whose_end_is_not_known(room):
    """The connection was cut: perhaps the store was made. What failed by itself, or never began, may be typed again."""
    machines = Machines(room)
    machines.run("copy")
    kept = (room / "srv/machine1/stores/match.kept").read_bytes()
    (room / "srv/machine1/stores/match.kept").unlink()
    want("104 Unreadable" in machines.run("init", "1", status=1).stderr, "it is made without match.kept")
    (room / "srv/machine1/stores/match.kept").write_bytes(kept)
    machines.stand_in("ssh", "exit 255")
    machines.run("init", "1", status=1)
    machines.stand_in("ssh", """case "$2" in *init*) sh -c "$2"; exit 255 ;; esac""")
    cut = machines.run("init", "1", status=1)
    want("failed (status 255)" in cut.stderr and machines.store(1).is_file(), cut.stderr)
    store = machines.store(1).read_bytes()
    machines.stand_in("ssh")
    refused = machines.run("init", "1", status=1)
    want("isn't known" in refused.stderr and f"{room}/m/run doctor 1" in refused.stderr, refused.stderr)
    want("103 StoreExists" in machines.run("init", "1", "--never-ran", status=1).stderr, "a store is made over another")
    want("isn't known" in machines.run("init", "1", status=1).stderr and machines.store(1).read_bytes() == store, "it is forgotten")


@test
def notes_logs_and_doctors_of_all_machines(room):
    """Words that only look: with this machine's own processes, then over ssh; what is found is told with the status."""
    with at_last(room):
        machines, _ = started(room)
        status = waited(lambda: (lambda done: done if done.count("  yes  ") >= 3 else None)(run([room / "m/run", "status"]).stdout), "a quorum of all")
        want([line.split()[0] for line in status.splitlines()] == ["node", "0", "1", "2"], status)
        notes = run([room / "m/run", "notes"]).stdout
        want(all(f"run: notes machine {i} (127.0.0.1)\n" in notes and f", node {i}: started" in notes for i in range(3)), notes)
        want(run([room / "m/run", "notes", "2"]).stdout.count("run: ") == 1, "more than one machine")
        # (on a busy machine another node may take longer than the tool waits)
        all_well = lambda: measuring.run([room / "m/run", "doctor", "0"], stdout=subprocess.PIPE, stderr=subprocess.STDOUT, text=True)
        doctor = waited(lambda: (lambda done: done if done.returncode == 0 else None)(all_well()), "a doctor that finds nothing", lambda: all_well().stdout)
        want(re.search(r"^ok    process   \d+ runs as this node$", doctor.stdout, re.M), doctor.stdout)
        (machines[1] / "key").chmod(0o640)
        found = run([room / "m/run", "doctor"], 1)
        want(found.stdout.count("look  key ") == 1 and "failed" not in found.stderr, found.stdout + found.stderr)
        run([room / "m/run", "fetch"])
        (into,) = (room / "m").glob("fetched.*")
        for i in range(3):
            want((into / f"machine{i}/notes").read_bytes() and (into / f"machine{i}/logs/node{i}.log").is_file(), f"{[*into.rglob('*')]}")
        want(mode(into) == 0o700, f"others can read it: {mode(into):o}")
        time.sleep(1.1)
        run([room / "m/run", "fetch", "1"])
        want([sorted(it.name for it in folder.iterdir()) for folder in sorted((room / "m").glob("fetched.*"))] == [["machine0", "machine1", "machine2"], ["machine1"]], "fetched")


@test
def notes_and_logs_over_ssh(room):
    machines = Machines(room)
    machines.run("copy")
    for i in range(3):
        (room / f"srv/machine{i}/notes").write_text(f"note {i}\n")
        (room / f"srv/machine{i}/logs/node{i}.log").write_text(f"log {i}\n")
    notes = machines.run("notes").stdout
    want(all(f"note {i}\n" in notes for i in range(3)), notes)
    machines.run("fetch")
    (into,) = (room / "m").glob("fetched.*")
    want(all((into / f"machine{i}/logs/node{i}.log").read_text() == f"log {i}\n" for i in range(3)), "no logs")
    want(all((into / f"machine{i}/notes").read_text() == f"note {i}\n" for i in range(3)), "no notes")
    want("look  store" in machines.run("doctor", "1", status=1).stdout, "no doctor")


@test
def a_folder_that_is_roots_is_made_by_sudo(room):
    """Where the login may not make the folder, sudo gives it to him; who may needs no sudo, and one that is there ends it."""
    machines = Machines(room, "--place", room / "srv/m", hosts="op@10.0.0.1,10.0.0.2,10.0.0.3")
    machines.stand_in("sudo", 'case "$1" in install) touch "$CALLS.sudo"; "$@" ;; esac')
    # (mkdir refuses what is below the folder of root)
    (room / "bin/mkdir").write_text(f"""#!/bin/sh\ncase "$*" in *{room}/srv*) echo "mkdir: Permission denied" >&2; exit 1 ;; esac\nexec {shutil.which("mkdir")} "$@"\n""")
    (room / "bin/mkdir").chmod(0o755)
    (room / "srv").mkdir(mode=0o755)
    done = machines.run("copy", status=1)
    sudo = [call for call in machines.calls() if call.startswith("sudo|")]
    want(len(sudo) == 1 and sudo[0].startswith("sudo|install|-d|-m|700|-o|") and sudo[0].endswith(f"|{room}/srv/m|"), f"{sudo}")
    want(mode(room / "srv/m") == 0o700 and all((room / "srv/m" / name).is_file() for name in ("match.toml", "doctor", "doctor_parts/notes.py")), "no folder was copied")
    # All three stand-ins are this machine: at the second the folder is there, and is left alone.
    want(f"{room}/srv/m: there already" in done.stderr and "machines behind it" in done.stderr, done.stderr)
    new(room / "n", "--place", room / "n_srv", hosts="op@10.0.0.1,10.0.0.2,10.0.0.3")
    (room / "calls").unlink()
    run([room / "n/run", "copy"], 1, env=machines.env)
    want("sudo|" not in (room / "calls").read_text() and mode(room / "n_srv") == 0o700, "sudo was called in vain")
