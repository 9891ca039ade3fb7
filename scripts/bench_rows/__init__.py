"""The rows of scripts/bench: each measures one thing as a ratio within one run."""
