"""The verbs. Each module has USAGE, its help, and `main(words)`, which gives the exit status."""
