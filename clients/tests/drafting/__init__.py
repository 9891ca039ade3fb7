"""Tests of landings and backouts."""
