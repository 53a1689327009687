"""The oracle: what the program must say of octets, worked out from the standards and docs/FORMAT.md, apart from the program and from
the tools that are installed beside it."""
