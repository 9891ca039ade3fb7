"""How things are spelled, by docs/FORMATS.md: changesets, nodes, paths and policies."""
