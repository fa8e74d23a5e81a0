"""The words of `tools/wb` that explain by the laws alone: `explain`."""
