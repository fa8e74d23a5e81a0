"""The word `tools/wb report`."""
