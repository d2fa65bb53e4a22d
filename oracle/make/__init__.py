"""Random and worked cases, and what is stored of them."""
