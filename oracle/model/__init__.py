"""The rules: what a run shows, notes, counts and leaves."""
