# For the scripts of examples/ and bench/: what they need is looked for before anything is proved or built.

# help SCRIPT: prints the comment at its head
help() {
    awk 'NR > 1 && !/^#/ { exit } NR > 1 { sub(/^# ?/, ""); print }' "$1"
}

# needs SCRIPT TOOL..: names every tool that is missing, and then ends with 1
needs() {
    local script=$1 tool missing=no
    shift
    for tool in "$@"; do
        command -v "$tool" >/dev/null || { echo "$script needs $tool" >&2; missing=yes; }
    done
    [[ $missing == no ]] || exit 1
}

# needs_cargo SCRIPT: cargo 1.80 or newer
needs_cargo() {
    local version
    needs "$1" cargo
    version=$(cargo --version | cut -d' ' -f2)
    printf '%s\n' 1.80 "$version" | sort -CV || { echo "$1 needs cargo 1.80 or newer, and this is $version" >&2; exit 1; }
}

# needs_lapack SCRIPT: a program can be linked with LAPACK
needs_lapack() {
    needs "$1" cc
    echo 'int main(void) { return 0; }' | cc -x c - -llapack -lblas -o /dev/null 2>/dev/null || { echo "$1 needs LAPACK (Debian: liblapack-dev libblas-dev)" >&2; exit 1; }
}

# needs_scipy SCRIPT PYTHON: this Python has SciPy
needs_scipy() {
    needs "$1" "$2"
    "$2" -c 'import scipy.io' 2>/dev/null || { echo "$1 needs SciPy, and $2 has none (Debian: python3-scipy; PYTHON may name another Python)" >&2; exit 1; }
}
