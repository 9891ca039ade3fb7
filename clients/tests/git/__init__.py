"""Tests of imports, exports and the remote for git."""
