"""The month in exact numbers, as the bench program counts it: in words, as pictures and as a sheet."""
