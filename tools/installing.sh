# For test scripts: tools that are missing are installed by apt.

# installed TEST PACKAGE..: installs the packages for tests/TEST, one test at a time. The lists of
# packages are fetched only where they are missing or old. Fails, and says why in `why`, where they
# are not to be had
installed() {
    local as=() get log=target/installing.$1
    [ "$(id -u)" -eq 0 ] || as=(sudo -n)
    get=("${as[@]}" env DEBIAN_FRONTEND=noninteractive apt-get -qq -o DPkg::Lock::Timeout=300)
    mkdir -p target
    echo "tests/$1: installing ${*:2}"
    {
        flock 9
        "${get[@]}" install -y --no-install-recommends "${@:2}" || {
            "${get[@]}" update && "${get[@]}" install -y --no-install-recommends "${@:2}"
        }
    } >"$log" 2>&1 9>target/installing.lock && return
    why=$(tail -n 1 "$log")
    return 1
}
