"""The tools that are installed beside the program cmsproof. They are tested, and nothing about them is proved."""

# the same as that of the program
VERSION = "1.0.0"
