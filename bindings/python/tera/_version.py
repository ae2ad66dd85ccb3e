"""The version of the module."""
__version__ = "0.2.0"
