"""The part that gives free minutes to a guest's device, and ends its session."""
