"""A model of how policies pace a collector: recordings, the simulated heap, and policies. tools/pace_model prints what it finds."""
