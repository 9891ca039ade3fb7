"""Tests of what a person sees on a terminal."""
