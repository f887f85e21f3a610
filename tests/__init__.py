"""The tests beside the proofs: tests/run, or from the root one as python3 -m tests.pictures.moves."""
