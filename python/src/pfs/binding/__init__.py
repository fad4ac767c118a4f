"""What binds the library for C."""
