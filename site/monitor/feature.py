"""What monitoring adds: the check of each night, and a file of rules for Prometheus."""

EACH_NIGHT = "check:each_night"
