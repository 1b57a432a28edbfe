"""The program pgnjson, as a process beside the model."""
