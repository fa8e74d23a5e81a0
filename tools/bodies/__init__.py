"""Wrong bodies: which stand where, whether they can be put in, and what the prover makes of them."""
