"""A small, independent implementation of the formats, written to be read: what the tests compare the engine with."""
