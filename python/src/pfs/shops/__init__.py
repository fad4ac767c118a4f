"""Instances, and searches of them."""
