# Avahi's daemon on a machine.

# Its settings, in a folder: on the wire alone, by IPv4, or where avahi_speaks says so by ipv6 or by both.
write_avahi_settings() { # FOLDER HOST D-BUS (yes or no)
    local ipv4=yes ipv6=yes
    [ "${avahi_speaks:-ipv4}" != ipv4 ] || ipv6=no
    [ "${avahi_speaks:-ipv4}" != ipv6 ] || ipv4=no
    mkdir -p "$1"
    cat >"$1/avahi.conf" <<CONF
[server]
host-name=$2
domain-name=local
use-ipv4=$ipv4
use-ipv6=$ipv6
allow-interfaces=wire
enable-dbus=$3
ratelimit-interval-usec=1000000
ratelimit-burst=1000
[wide-area]
enable-wide-area=no
[publish]
publish-hinfo=no
publish-workstation=no
publish-aaaa-on-ipv4=no
[rlimits]
CONF
}

# Starts it with the settings and the services (*.service) of a folder, behind a command that runs it, such as env, where one is given. Its run folder and the
# folder of its services are fixed, so it has a mount namespace.
start_avahi_on() { # MACHINE FILE FOLDER [COMMAND...]
    local machine=$1 file=$2 folder=$3
    shift 3
    # shellcheck disable=SC2016
    start_on "$machine" "$file" unshare -m sh -c \
        'mkdir -p /run/avahi-daemon && mount -t tmpfs none /run/avahi-daemon && mount -t tmpfs none /etc/avahi/services || exit 1
         cp "$0"/*.service /etc/avahi/services 2>/dev/null
         exec "$@" avahi-daemon --no-drop-root --no-chroot --no-rlimits --debug -f "$0/avahi.conf"' "$folder" "$@"
}
