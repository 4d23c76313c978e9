"""What the tools of the office share. Unproved: they stand beside the desk, and findings are the desk's alone."""
