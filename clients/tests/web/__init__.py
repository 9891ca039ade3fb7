"""Tests of the page and the gateway."""
