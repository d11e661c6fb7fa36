"""The parts of tools/league: the plan, the deals, the bots' processes, one match, many matches, the table and the page."""
