# Sourced by the scripts of this folder. Sets:
#   harness   this folder
#   output    where cargo puts programs
# RGROW_SRC   a folder that holds rgrow-rust/src, of cgevans/rgrow at fd3e69a1ab
# PORT_LIB    the folder of libexports.a; without it, where harness/archive writes it

harness=$(cd "$(dirname "${BASH_SOURCE[0]}")" && pwd)
repository=$(dirname "$harness")
output=$repository/target/harness/release

# Where cargo or rgrow's text is missing, nothing can be compared and nothing is wrong.
need_rust() {
    command -v cargo >/dev/null || {
        echo "harness: cargo is missing; $1 was not run"
        exit 0
    }
}

need_rgrow() {
    [ -n "${RGROW_SRC:-}" ] || {
        echo "harness: RGROW_SRC is not set; $1 was not run"
        exit 0
    }
    RGROW_SRC=$(cd "$RGROW_SRC" && pwd)
    export RGROW_SRC
}

# Built from this repository, so its absence is a fault.
need_port() {
    PORT_LIB=${PORT_LIB:-$repository/target/staticlib}
    [ -f "$PORT_LIB/libexports.a" ] || {
        echo "harness: $PORT_LIB/libexports.a is missing; harness/archive makes it" >&2
        exit 1
    }
    PORT_LIB=$(cd "$PORT_LIB" && pwd)
    export PORT_LIB
}

# cargo links by cc; where that is missing, by the kit's linker.
command -v cc >/dev/null || export CARGO_TARGET_X86_64_UNKNOWN_LINUX_GNU_LINKER="$harness/link"

# As .cargo/config.toml says, whatever output folder the caller has set for cargo.
in_harness() {
    (cd "$harness" && CARGO_TARGET_DIR="$repository/target/harness" "$@")
}
