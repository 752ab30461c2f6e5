"""Resolves one instance with python-zeroconf and prints host, port, addresses and TXT pairs: ADDRESS SERVICE INSTANCE."""

import sys

from zeroconf import Zeroconf

address, service, instance = sys.argv[1:]
zeroconf = Zeroconf(interfaces=[address])
try:
    info = zeroconf.get_service_info(service, f"{instance}.{service}", timeout=8000)
finally:
    zeroconf.close()
if info is None:
    sys.exit("not found")
print(f"host {info.server}")
print(f"port {info.port}")
for found in info.parsed_addresses():
    print(f"address {found}")
for key, value in info.properties.items():
    print(f"txt {key.decode()}" + ("" if value is None else f"={value.decode()}"))
