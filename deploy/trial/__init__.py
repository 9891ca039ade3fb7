"""What the trials of a deployment share: programs that are started, clients, and what was acknowledged."""
