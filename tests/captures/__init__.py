"""Captures of packets for the importer: how they are laid out, what the request makes of them, and the test."""
