"""Samples: files that are built or made by openssl, for those who try the program, for its rows, documents and benchmarks."""
