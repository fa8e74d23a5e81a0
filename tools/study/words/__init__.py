"""The words of `tools/wb` about studies: `study`, `plot-study`."""
