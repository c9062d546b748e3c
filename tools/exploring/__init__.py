"""What tools/explore is made of."""
