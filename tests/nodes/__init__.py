"""What `tests/cluster_failures` is made of: nodes as processes, the wire between them, what their masters must not lose, and what is done to them."""
