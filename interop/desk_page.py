"""What sells, and nginx before the pages, on a Debian machine with systemd that no set-up made."""

KEY_FILE, SECRET_FILE = "/etc/radacctd-site.key", "/etc/radacctd-books.secret"
CERTIFICATE, PRIVATE_KEY = "/etc/ssl/radacctd.pem", "/etc/ssl/private/radacctd.key"
NAME, PASSWORD = "anna", "anna-has-a-pass"
NGINX = "/usr/lib/radacctd/radacctd_site/core/nginx/radacctd.conf"
SETTINGS = '{"name": "", "url": "", "currency": "", "decimals": 2}'


def put_store(box, key):
    """The user of what sells, with a cashier's key; the secret of corrections may be there."""
    box.must("set -e; systemd-sysusers radacctd-site.conf; "
             "install -d -m 700 -o radacctd-site -g radacctd-site /var/lib/radacctd-site; "
             f"install -m 600 /dev/null {KEY_FILE}; echo {key} > {KEY_FILE}; "
             f"test -e {SECRET_FILE} || install -m 600 /dev/null {SECRET_FILE}; "
             "systemctl enable --now radacctd-minute.timer")


def put_proxy(box):
    """nginx with the pages but its start, and a cashier's password."""
    box.must("set -e; openssl req -x509 -newkey rsa:2048 -nodes -days 2 -subj /CN=x "
             f"-keyout {PRIVATE_KEY} -out {CERTIFICATE} 2>&1; "
             f"install -m 644 {NGINX} /etc/nginx/conf.d/radacctd.conf; "
             f"install -d /etc/radacctd-web; echo '{SETTINGS}' > /etc/radacctd-web/settings.json; "
             f"echo {PASSWORD} | radacctl person put {NAME}; "
             "systemctl enable --now radacctd-site.socket")
