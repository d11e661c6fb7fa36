"""Tools look which Python runs them before they import what an older one doesn't have. Some read TOML files, which Python does from 3.11 on."""
import sys

# What every tool needs, and what those need that read TOML files; why, where it isn't for all.
LEAST, READS_TOML = (3, 8), (3, 11)
WHY = {READS_TOML: ", which reads TOML files"}


def want(tool, least=READS_TOML, status=2):
    """Ends a tool with a sentence and this status, if this Python is too old."""
    if sys.version_info < least:
        needed = ".".join(map(str, least))
        print(f"{tool}: needs Python {needed} or later{WHY.get(least, '')}; this is {sys.version.split()[0]}", file=sys.stderr)
        sys.exit(status)
