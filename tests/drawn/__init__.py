"""Inputs that are drawn at random, by programs beside the model."""
