"""The server over the network: its routes as calls, connections, contents of any size."""
