# Our programs on sockets: those in the folder PROGRAMS where it is given, such as of another version, else built from what stands here.
find_programs() {
    local folder=${PROGRAMS:-$root/rust/target/release}
    [ -n "${PROGRAMS:-}" ] || { "$root/tools/library" && cargo build --release --quiet --manifest-path "$root/rust/udp/Cargo.toml"; } || return 1
    responder=$folder/responder
    browser=$folder/browser
    proxy=$folder/proxy
}
