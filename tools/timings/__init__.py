"""What `tools/bench.py` times, a module for each of its words, with the programs in other languages that they need."""
