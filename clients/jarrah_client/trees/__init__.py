"""Trees of changesets, what two of them differ in, and how they are written out."""
