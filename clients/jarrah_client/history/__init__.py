"""What a repository has: its log, chains of changesets, and their names, dates and readers."""
