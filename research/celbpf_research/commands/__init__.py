"""The scripts, a module for each."""
