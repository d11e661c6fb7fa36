"""Rows of tests/new_match on ports: whom a machine's firewall lets through, and how often a status is asked for."""
import contextlib
import os
import re
import shutil
import socket
import subprocess
import sys
import threading
import time

import measuring
from measuring import NotMeasured, in_time, want
from new_match_made import Machines, new, run, test
from processes_ways import Hosts, NoHosts, ip
from serving import TOP, free_ports

sys.path.insert(0, str(TOP / "tools"))
import status_table

STATUS = TOP / "tools/status"
LINE = "node 0 front 3 hand 0 over no replaying no promised 1.0 leads yes quorum yes peers 1:3,2:3 seats alice:seated,bob:seated pending no backlog 0,0 commands 0/s\n"
# A program that listens at ports, says so, and says a line to whoever comes.
LISTENER = """
import socket, sys
servers = [socket.create_server(("10.77.0.1", int(port))) for port in sys.argv[2:]]
print("ready", flush=True)
import selectors
ready = selectors.DefaultSelector()
for server in servers:
    ready.register(server, selectors.EVENT_READ)
while True:
    for key, _ in ready.select():
        with key.fileobj.accept()[0] as connection:
            connection.sendall(sys.argv[1].encode())
"""
# Whether it comes, or is dropped: how long a connection is waited for, in seconds.
DROPPED = 0.7


@contextlib.contextmanager
def machine_with_nft():
    """A machine of its own with a firewall, and this one at a switch beside it; the words before a program there."""
    nft = shutil.which("nft", path=f"{os.environ['PATH']}:/usr/sbin:/sbin")
    if nft is None:
        raise NotMeasured("there is no command nft")
    try:
        hosts = Hosts(1)
    except NoHosts as why:
        raise NotMeasured(str(why)) from why
    try:
        listed = subprocess.run([*hosts.starter(0), nft, "list", "ruleset"], capture_output=True, text=True)
        if listed.returncode != 0:
            raise NotMeasured(f"nft: {listed.stderr.strip()}")
        yield hosts, nft
    finally:
        hosts.remove()


@contextlib.contextmanager
def listening(hosts, *ports):
    with subprocess.Popen([*hosts.starter(0), sys.executable, "-c", LISTENER, LINE, *map(str, ports)], stdout=subprocess.PIPE, text=True) as program:
        try:
            want(program.stdout.readline() == "ready\n", "nobody listens")
            yield
        finally:
            program.kill()


def is_let_through(source, port):
    try:
        socket.create_connection(("10.77.0.1", port), timeout=DROPPED, source_address=(source, 0)).close()
    except TimeoutError:
        return False
    return True


def through(sources, wanted):
    """At each port these connect, and nobody else. (On a busy machine a connection may take longer than it is waited for.)"""
    for port, names in wanted.items():
        found = [who for who, source in sources.items() if is_let_through(source, port)]
        want({*found} <= {*names}, f"port {port}: {found} are let through, not {names}")
        in_time({*names} <= {*found}, f"port {port}: {found} are let through, not {names}")


@test
def a_firewall_lets_through_whom_it_names(room):
    """In a network of its own: at each port those who are to be there, and nobody else; at other ports all. Loaded again it is the
    same, other tables stay as they are, and it goes as it came."""
    sources = {"peer": "10.77.0.3", "bot": "10.77.0.70", "operator": "10.77.0.50", "stranger": "10.77.0.90"}
    new(room / "m-1.x", "--bots", "10.77.0.64/28", "--operator", "10.77.0.50,fd00::5", hosts="10.77.0.1,10.77.0.2,10.77.0.3")
    new(room / "open", hosts="10.77.0.1,10.77.0.2,10.77.0.3")
    new(room / "six", "--bots", "fd00:1::/64,fd00:1::7,10.0.0.0/8,10.1.0.0/16", hosts="fd00::1,fd00::2,fd00::3")
    wanted = {7100: "peer", 7109: "operator", 7110: "bot", 7111: "bot", 7112: None, 22: None}
    with machine_with_nft() as (hosts, nft), listening(hosts, *wanted):
        there = [*hosts.starter(0), nft]
        for address in sources.values():
            ip("-n", hosts.switch, "addr", "add", f"{address}/24", "dev", "bridge")
        run([*there, "add", "table", "inet", "mine"])
        run([*there, "-c", "-f", room / "six/machine1/firewall"])
        through(sources, {port: [*sources] for port in wanted})
        for _ in range(2):
            run([*there, "-f", room / "m-1.x/machine0/firewall"])
            rules = run([*there, "list", "ruleset"]).stdout
            want(rules.count("table inet holdem_m-1.x {") == 1 and rules.count("drop") == 3 and "table inet mine {" in rules, rules)
        through(sources, {port: [who] if who else [*sources] for port, who in wanted.items()})
        # Without the options the nodes' own port alone has a rule.
        run([*there, "add table inet holdem_m-1.x; delete table inet holdem_m-1.x"])
        run([*there, "-f", room / "open/machine0/firewall"])
        through(sources, {port: ["peer"] if port == 7100 else [*sources] for port in wanted})


@test
def run_loads_the_firewall_and_removes_it(room):
    """By nft on each machine; of nodes at loopback addresses there is none. What no option names is told."""
    machines = Machines(room, "--operator", "10.0.9.7")
    want("m/run firewall" in machines.new.stdout and "no rule for seats: --bots is missing" in machines.new.stdout and "--operator is missing" not in machines.new.stdout, machines.new.stdout)
    machines.run("copy")
    machines.run("firewall")
    machines.run("firewall", "off", "2")
    sudo = [call for call in machines.calls() if call.startswith("sudo|nft|")]
    want(sudo[:3] == [f"sudo|nft|-f|{room}/srv/machine{i}/firewall|" for i in range(3)], f"{sudo}")
    want(sudo[3:] == ["sudo|nft|add table inet holdem_m; delete table inet holdem_m|"], f"{sudo}")
    # The three nodes have one address: each of their files has the rules of all, so that none of them undoes another's.
    texts = [(room / f"srv/machine{i}/firewall").read_text() for i in range(3)]
    want(len({*texts}) == 1 and re.findall(r"tcp dport (\d+) drop", texts[0]) == ["7100", "7109", "7200", "7209", "7300", "7309"], texts[0])
    # Who changes an address there changes one: neighbours are no network of two. What lies in another network isn't named twice.
    new(room / "next", "--bots", "10.0.0.64/28,10.0.0.65", hosts="10.0.0.1,10.0.0.2,10.0.0.3")
    text = (room / "next/machine0/firewall").read_text()
    want("dport 7100 ip saddr { 10.0.0.2, 10.0.0.3 } accept" in text and "ip saddr { 10.0.0.64/28 } accept" in text, text)
    here = new(room / "here", "--place", room / "there", hosts="127.0.0.1,127.0.0.1,127.0.0.1")
    want("firewall" not in here.stdout and not (room / "here/machine0/firewall").exists(), here.stdout)
    run([room / "here/run", "copy"])
    want(run([room / "here/run", "firewall"]).stdout.count("needs none") == 3, "a firewall at a loopback address")
    for option in ("--bots", "--operator"):
        refused = new(room / "wrong", option, "10.0.0.1,db3", status=2)
        want(f"{option}: expected IP addresses" in refused.stderr and "db3" in refused.stderr, refused.stderr)


def asked(port):
    """What tools/status says of a match whose one node has its status there."""
    done = measuring.run([STATUS, "/dev/stdin"], input=f'[[node]]\nstatus = "{port}"\n', capture_output=True, text=True)
    return done.returncode, done.stdout.splitlines()[1]


@test
def a_status_is_asked_for_again(room):
    """One that nobody answers at first, or that takes connections and says nothing, is reached once it answers; after three seconds
    it isn't."""
    port = free_ports(2)
    want(asked(port) == (1, "0     not reached"), "nobody is reached")

    def late():
        time.sleep(1.3)
        with socket.create_server(("127.0.0.1", port)) as server:
            server.accept()[0].close()
            with server.accept()[0] as connection:
                connection.sendall(LINE.encode())

    thread = threading.Thread(target=late)
    thread.start()
    found = asked(port)
    thread.join()
    # (on a busy machine it may answer only when three seconds are over)
    in_time(found[0] == 0, f"{found}")
    want(found[1].split()[1:] == ["not", "reached"] if found[0] else found[1].split()[:2] == ["0", "3"], f"{found}")
    with socket.create_server(("127.0.0.1", port)):
        begun = time.monotonic()
        want(asked(port) == (1, "0     not reached"), "a process that hangs is reached")
        want(time.monotonic() - begun >= status_table.IN_ALL - 1, "it isn't asked again")


@test
def a_status_behind_a_lost_packet(room):
    """The first packet of a connection is lost, which the system sends again after a second."""
    with machine_with_nft() as (hosts, nft), listening(hosts, 7109):
        there = [*hosts.starter(0), nft]
        run([*there, "add table inet lossy; add chain inet lossy input { type filter hook input priority 0; }"])
        run([*there, "add rule inet lossy input tcp dport 7109 tcp flags & (syn | ack) == syn quota until 60 bytes drop"])
        found = asked("10.77.0.1:7109")
        want(found[0] == 0 and found[1].split()[:2] == ["0", "3"], f"{found}")
        rules = run([*there, "list", "ruleset"]).stdout
        want(re.search(r"quota 60 bytes used (\d+)", rules) and "used 0 bytes" not in rules, f"no packet was lost: {rules}")
