"""The kinds of scripts, one subject a file. A kind is a function that writes lines into a Script until it is full."""
