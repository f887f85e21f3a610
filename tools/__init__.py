"""The scenario tool, the pictures, and bench_input, which lays out octets for them and the tests."""
