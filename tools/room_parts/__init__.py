"""What tools/room stands on. The engine of a match is tools/match_engine, and plan, table and page are those of tools/league_parts."""
