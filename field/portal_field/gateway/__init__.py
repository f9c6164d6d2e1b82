"""The gateway: which devices pass, by which address, and how many bytes they used."""
