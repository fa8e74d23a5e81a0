"""Tests of tools/. `tools/check-tools` runs them; each file tests the part that it is named after."""
