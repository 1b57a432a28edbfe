"""What bench/attacks.py does to the programs, the package, the desk and the scripts for many machines."""
