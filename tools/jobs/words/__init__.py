"""The word of `tools/wb` that does one job: `job`."""
