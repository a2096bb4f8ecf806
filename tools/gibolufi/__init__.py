"""Gibolufi for people: from a C file to an answer by one command, and words for every fault."""

VERSION = "1.0"
