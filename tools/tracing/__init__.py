"""What tools/make_trace is made of."""
