"""Metrics of a venue for Prometheus."""
