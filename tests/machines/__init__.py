"""The scripts for many machines."""
