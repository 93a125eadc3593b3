"""Runs of which one allocation is refused."""
