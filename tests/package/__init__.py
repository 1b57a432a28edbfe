"""The Python package: its commands as processes, and the desk."""
