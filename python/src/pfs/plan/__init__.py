"""Plans of a table of times."""
