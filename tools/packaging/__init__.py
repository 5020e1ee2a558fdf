"""What tools/package makes packages with: the standard library of Python alone."""
