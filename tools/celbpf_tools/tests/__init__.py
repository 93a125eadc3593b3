"""Unit tests, which ask no program: `tools/run-units` runs them."""
