"""Browses with python-zeroconf until it is ended: ADDRESS SERVICE names|resolved.

Prints 'added NAME', 'removed NAME' and, where instances are resolved, 'found NAME HOST PORT TXT' for each that is new or changed, as its manual shows it: in
the listener, by get_service_info."""

import signal
import sys

from zeroconf import ServiceBrowser, Zeroconf

address, service, wanted = sys.argv[1:]


class Listener:
    def add_service(self, zeroconf, kind, name):
        print(f"added {name.split('.')[0]}", flush=True)
        self.update_service(zeroconf, kind, name)

    def update_service(self, zeroconf, kind, name):
        if wanted == "names":
            return
        info = zeroconf.get_service_info(kind, name)
        if info is not None:
            texts = " ".join(f"{key.decode()}={value.decode()}" for key, value in info.properties.items())
            print(f"found {name.split('.')[0]} {info.server.rstrip('.')} {info.port} {texts}", flush=True)

    def remove_service(self, zeroconf, kind, name):
        print(f"removed {name.split('.')[0]}", flush=True)


zeroconf = Zeroconf(interfaces=[address])
browser = ServiceBrowser(zeroconf, service, Listener())
print("begun", flush=True)
signal.pause()
