"""Tests of logs, and of what is kept of them."""
