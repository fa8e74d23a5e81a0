"""The words of `tools/wb` that run many traces: `sweep`, `nearest`."""
