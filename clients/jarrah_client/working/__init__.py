"""A working copy: a folder with the tree of a changeset, and what was changed in it since."""
