"""Tests of the server's program and its script."""
