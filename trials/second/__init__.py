"""A second emulator of Ipc, with a model that audits traces, and random machines to compare it with the program."""
