"""Logins at access servers: what FreeRADIUS calls, and the agent that reports and disconnects."""
