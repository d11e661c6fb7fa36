"""The hands of a log in formats that other programs read: tools/hands."""
