"""A module for each script in Python: its `main` returns the script's status."""
