"""Tests of trees, and of how they are written out."""
