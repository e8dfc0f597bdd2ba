"""The version of the library that this package is for."""
__version__ = "0.16.0"
