#!/usr/bin/env python3
"""A command: with --help it says what it does."""
from groute import start

start.run("differ")
