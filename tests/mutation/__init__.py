"""Changes of the definitions of `model`, one at a time, and what notices them."""
