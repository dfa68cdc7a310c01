"""What the set-up adds: its command, and the faults that its check names."""

COMMANDS = {"setup": ("sets a site up, or says what is wrong with it", "setup_command")}
CRITICAL = {
    "book-away": "the book is not at its name: nothing is answered, and a stop may lose it",
    "unit-down": "a unit that the site needs does not run, not at each boot, or not with its files",
    "config-wrong": "the configuration has a fault: a restart fails",
    "plan-waits": "a plan of the configuration is not in force: a restart fails",
    "plan-lost": "a plan in force is not in the configuration, or another one: a restart fails",
    "balances-old": "the server does not write the balances",
    "disk-full": "a disk of the site is nearly full",
    "clock-wrong": "the clock is before what the site wrote, or before 2026",
    "nginx-wrong": "nginx' configuration has a fault, or its page is not that of the set-up",
    "certificate-ended": "a certificate does not hold now, or is not there",
    "certificate-other": "the pages' certificate is of another name than `host`",
    "store-wrong": "site.db or users.db is damaged, or cannot be written: nothing is sold",
    "try-failed": "a login, a report, a sale or a page that was tried is not answered as it should",
}
WARNINGS = {
    "drop-secret": "an access server has another secret than radacctd",
    "differs": "what the set-up makes is missing, or another one, or has other rights",
    "unit-failed": "a unit of the site has failed",
    "desk-open": "radacctd's desk, which sells, listens beyond this machine",
    "sample-value": "a secret or key is the sample's, which is public",
    "secret-short": "a secret has less than 16 characters",
    "clock-unset": "nothing keeps the clock",
    "certificate-ends": "a certificate ends within three weeks",
    "certificate-old": "nginx has not read a certificate that was renewed",
    "not-seen": "a side of the site could not be looked at",
}
NOTES = {
    "device-unknown": "what is no client sends reports or logins: a device with a new address, or "
                      "a stranger",
    "host-unknown": "the pages' name has no address in the DNS, as this machine asks it",
    "device-silent": "an access server of which no report came, or none for two days",
}
