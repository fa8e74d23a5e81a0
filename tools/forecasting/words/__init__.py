"""The word of `tools/wb` that makes forecasts.

    forecast  tables and a picture of a run by intervals
"""
