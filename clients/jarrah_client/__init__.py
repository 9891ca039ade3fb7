"""The client of a Jarrahchess server: commands, formats, and a page to look round."""

VERSION = "1.0.0"
