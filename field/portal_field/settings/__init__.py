"""The settings of a venue, field.toml, and the set-up that makes every other file from them."""
