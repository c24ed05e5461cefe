"""What the tools share with one another and with the scripts under `tests/`."""
