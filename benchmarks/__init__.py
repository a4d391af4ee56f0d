"""How long the program takes, and how much memory. Each is run as `python3 -m benchmarks.run`, from the top."""
