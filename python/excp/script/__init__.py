"""Plain scripts and scenarios: their grammar, how lines are read, and what they declare."""
