"""The scripts of the gate and of those who change the crates."""
