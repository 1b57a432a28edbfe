"""The tests: one folder for each program, for the package, for what the pages show and for many machines."""
