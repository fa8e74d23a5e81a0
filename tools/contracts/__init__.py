"""The contracts of the crates, as they stand in the sources, and the sentences that say them in words."""
