"""The parent of the server, and what reports parts that fail."""
