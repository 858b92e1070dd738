# For ./rsp and ./try: whether the program stands, no older than a source. `home` and `program` are named before.
is_current() {
    [ -x "$program" ] || return 1
    newer=$(find "$home/crates.txt" "$home"/crates/*/src "$home"/crates/*/specs "$home"/crates/*/proofs \
        -newer "$program" -print -quit 2> /dev/null)
    [ -z "$newer" ]
}
