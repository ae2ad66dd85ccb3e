"""Makes the packages that need no kit, from the library and the program that are built."""
