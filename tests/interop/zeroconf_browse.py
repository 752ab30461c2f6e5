"""Browses a service with python-zeroconf and prints the names found, changed (with the TXT) and removed within some seconds: ADDRESS SERVICE SECONDS."""

import sys
import time

from zeroconf import ServiceBrowser, Zeroconf

TXT, CLASS_IN = 16, 1
address, service, seconds = sys.argv[1:]


class Listener:
    def add_service(self, zeroconf, kind, name):
        print(f"added {name}", flush=True)

    def update_service(self, zeroconf, kind, name):
        record = zeroconf.cache.get_by_details(name, TXT, CLASS_IN)
        print(f"updated {name} txt {record.text if record else None}", flush=True)

    def remove_service(self, zeroconf, kind, name):
        print(f"removed {name}", flush=True)


zeroconf = Zeroconf(interfaces=[address])
ServiceBrowser(zeroconf, service, Listener())
time.sleep(float(seconds))
zeroconf.close()
