"""Pictures by the command line: `python -m gco`."""
