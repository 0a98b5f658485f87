"""What tools/release makes of the program's own help texts."""
