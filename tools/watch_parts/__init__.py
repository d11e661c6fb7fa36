"""A page that follows matches: tools/watch."""
