"""The command line: what is read, and what is said."""
