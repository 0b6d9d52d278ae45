# need COMMAND.. or COMMAND:PACKAGE..: installs the Debian package of each command that is missing; rt cannot be had that way.
need() {
    for want in "$@"; do
        command=${want%%:*}
        package=${want##*:}
        command -v "$command" >/dev/null 2>&1 && continue
        if [ "$command" = rt ]; then
            echo "The Rattle kit (the command rt) is not installed: nothing here can be proved or built without it." >&2
            exit 2
        fi
        if [ "$(id -u)" = 0 ]; then
            apt-get install -y --no-install-recommends "$package" >/dev/null || { apt-get update >/dev/null && apt-get install -y --no-install-recommends "$package" >/dev/null; }
        else
            sudo apt-get install -y --no-install-recommends "$package" >/dev/null
        fi
    done
}
