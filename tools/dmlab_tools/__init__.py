"""What the tools of dmlab share and are made of."""
