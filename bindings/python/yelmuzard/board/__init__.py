"""A board's files: lists of gauges and tables of readings in, maps and rollups out. `python3 -m yelmuzard` is the command line."""
