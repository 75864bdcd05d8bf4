"""The clients of a desk: `bureau-client`, `zone-csv` and `publication`. Python 3.9 or later runs them, and nothing else is needed."""
