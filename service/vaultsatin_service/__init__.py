"""A service of many documents: each in use is a process of `lexical`, and all that was answered is in a log."""
