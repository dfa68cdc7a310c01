"""What two machines that share reports add."""

SETUP = LOOKS = "setup"
WARNINGS = {"pair-waits": "reports wait for the other machine"}
