"""Histories in from git, and out to it."""
