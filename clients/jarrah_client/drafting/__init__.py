"""Making changesets, landing them, and backing them out."""
