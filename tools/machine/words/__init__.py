"""The word of `tools/wb` that makes a trace of a machine: `from-machine`."""
