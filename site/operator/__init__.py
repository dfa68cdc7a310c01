"""The operator's look: who is on, octets by the hour, sales by the day, who is overdrawn."""
