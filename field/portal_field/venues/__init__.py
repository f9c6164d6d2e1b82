"""Several venues on one machine, each by its name: a desk, a file, a port and tokens of its own."""
