"""Lines of files: differences and merges, likeness, and who brought each."""
