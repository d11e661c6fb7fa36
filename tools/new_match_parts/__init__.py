"""What tools/new-match stands on."""
