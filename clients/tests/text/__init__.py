"""Tests of lines of files."""
