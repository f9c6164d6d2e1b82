"""The guests' page, and the look-up of a device."""
