"""Tests of spellings and ids."""
