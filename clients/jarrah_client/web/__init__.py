"""The local program: a page to look round in, and JSON routes for other tools."""
