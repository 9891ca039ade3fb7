"""The subcommands, each a function of its options, a server and an output."""
