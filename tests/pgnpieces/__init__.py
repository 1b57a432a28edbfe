"""The program pgnpieces, as a process beside the model."""
