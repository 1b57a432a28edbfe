"""The program cqlpgn, as a process beside the model."""
