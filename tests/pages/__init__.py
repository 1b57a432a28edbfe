"""What the pages show, beside the programs and the cases."""
