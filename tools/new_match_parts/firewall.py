"""The firewall of a machine: a table of nftables of its own that drops at the ports of one match, and leaves all else alone."""
import ipaddress
from typing import NamedTuple, Optional, Sequence

HEAD = """\
# The firewall of the match {name} on this machine, made by tools/new-match. It drops at the ports of this match alone, and leaves
# all other rules as they are. 'run firewall' loads it, also again; 'run firewall off' removes it. A restart of the machine removes
# it too.
table inet {table}
delete table inet {table}
table inet {table} {{
    chain input {{
        type filter hook input priority 0; policy accept;
        iif lo accept
"""


class Rule(NamedTuple):
    """Ports, the first and the last, at which only these addresses and networks may connect: all of them where there are none."""

    what: str
    ports: tuple
    sources: Optional[Sequence]


def table_of(name):
    """What the table of a match is called."""
    return f"holdem_{name}"


def sources_of(option, text):
    """The addresses and networks of an option, none where it is missing."""
    if text is None:
        return None
    try:
        return [ipaddress.ip_network(word, strict=False) for word in text.split(",")]
    except ValueError:
        raise ValueError(f"{option}: expected IP addresses or networks, as 10.0.9.7,10.0.8.0/24, not {text!r}") from None


def spelled(network):
    """A network, or the one address that it is."""
    return str(network.network_address if network.num_addresses == 1 else network)


def outermost(networks):
    """Those that lie in no other one, since nft refuses what overlaps. Neighbours stay apart, so that one address can be changed."""
    found = {*networks}
    return sorted(it for it in found if not any(it != other and it.subnet_of(other) for other in found))


def lines_of(rule):
    first, last = rule.ports
    at = f"tcp dport {first}" if first == last else f"tcp dport {first}-{last}"
    yield f"# {rule.what}"
    for word, version in (("ip", 4), ("ip6", 6)):
        found = [spelled(it) for it in outermost(it for it in rule.sources if it.version == version)]
        if found:
            yield f"{at} {word} saddr {{ {', '.join(found)} }} accept"
    yield f"{at} drop"


def text(name, rules):
    """The file that nft loads: it replaces the table by itself, so that it may be loaded again."""
    lines = [line for rule in rules if rule.sources is not None for line in lines_of(rule)]
    return HEAD.format(name=name, table=table_of(name)) + "".join(f"        {line}\n" for line in lines) + "    }\n}\n"
