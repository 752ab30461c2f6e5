# A link of three machines: a, b and c, at one bridge.

address_of() { # MACHINE
    case $1 in a) echo 10.77.0.1 ;; b) echo 10.77.0.2 ;; c) echo 10.77.0.3 ;; esac
}

make_link() {
    local machine
    make_bridges bridge
    for machine in a b c; do make_machine $machine bridge; done
}
