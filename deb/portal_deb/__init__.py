"""What the Debian package adds to the kit: the command portal-setup."""
