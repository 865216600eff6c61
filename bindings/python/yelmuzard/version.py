"""The version, which is the file VERSION's; tests/papers/papers.sh compares them."""
VERSION = "0.24.0"
NUMBER = sum(factor * int(part) for factor, part in zip((10000, 100, 1), VERSION.split(".")))
