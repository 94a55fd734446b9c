"""The programs, each in a module of its own."""
