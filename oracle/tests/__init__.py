"""Checks of the model by itself, and of the program by the model."""
