"""A remote of git's smart HTTP protocol, whose pushes are landed by the server."""
