"""Saved runs, and the table of their edits."""
