"""Sheets of vouchers as PDF, in a unit of its own."""
