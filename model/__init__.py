"""A slow model of the whole program, written from the description of the language and not from the crates. It wants Python 3 alone."""
