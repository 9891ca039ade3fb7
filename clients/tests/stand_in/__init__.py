"""A stand-in for the server, for the client's tests alone.

A plain and slow model of the definitions, in memory and in one lock. It shares no code with the
client, so that an error in one is seen against the other. It is no server to work with.
"""
