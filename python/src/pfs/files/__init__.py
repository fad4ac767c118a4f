"""Files and tables of instances."""
