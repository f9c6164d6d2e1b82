"""Copies of the database while the server serves, and what puts one back."""
