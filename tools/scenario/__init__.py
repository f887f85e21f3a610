"""Scenarios: text that a person writes, turned into bench input, and the answers told in words."""
