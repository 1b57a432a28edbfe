"""The command lines: each module has `main(words)`, which gives the exit status, and `entry()`, which ends the process with it."""
