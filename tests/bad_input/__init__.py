"""What tests/inputs gives to the built programs, a module for each kind of input, and what they stand on."""
