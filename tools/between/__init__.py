"""What tools/replays puts between the players of a match: sealed packets written a second time, and networks that repeat."""
