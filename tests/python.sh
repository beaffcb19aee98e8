#!/usr/bin/env bash
# Installs the Python package into a fresh venv, without the network, and runs its tests and the lines of its page from there.
#
#   tests/python.sh           all tests, with some seconds of made-up cases
#   tests/python.sh --more    long runs of made-up cases, the example on a cluster of two processes, the benchmark's answers;
#                             a wheel over what cargo builds of rust/; the tests by a later Python
#
# The interpreter is PYTHON, or else the first of python3 and /usr/bin/python3 that has numpy and hypothesis, or else python3.
# Interpreters with locks of their own, and a Python without the lock, are tested by another Python if one is at hand.
# What runs for MOST seconds is ended, and says where it was.
# Its last line is 'N passed, M failed, K skipped'. It ends with 77 if a tool is missing.
set -u
cd "$(dirname "$0")/../python" || exit 1
. ../tests/steps.sh

needs python3 python3
compiler=${CC:-cc}
needs "${compiler%% *}" gcc
work=$(mktemp -d) || exit 1
trap 'rm -rf "$work"' EXIT
export PYTHONDONTWRITEBYTECODE=1 PIP_DISABLE_PIP_VERSION_CHECK=1

# Whether an interpreter has a module.
has() {
    "$1" -c "import $2" 2>/dev/null
}

# The interpreter that the tests are run by.
interpreter() {
    local python
    for python in python3 /usr/bin/python3; do
        if has "$python" "numpy, hypothesis"; then
            echo "$python"
            return
        fi
    done
    echo python3
}

python=${PYTHON:-$(interpreter)}
here=$PWD
MOST=600
venv=$work/venv/bin/python

# Runs the installed package.
runs() {
    within $MOST "$venv" -X faulthandler "$@"
}

installs() {
    "$python" -m venv --system-site-packages "$work/venv" && "$venv" -m pip install --no-index --quiet "$here"
}

# Runs the tests of some modules outside of the tree, so that what is imported is what was installed.
tests() {
    (cd "$work" && runs -m unittest discover -s "$here/tests" -t "$here/tests" "$@")
}

# Runs the lines of a page, word for word, that are marked as Python, or as Python with one more word.
runs_page() {
    local page=$1
    shift
    awk -v fence="\`\`\`$*" '/^```/ { on = $0 == fence; next } on' "$page" >"$work/page.py"
    [ -s "$work/page.py" ] && (cd "$work" && runs page.py)
}

prints_the_difference() {
    local line='from range_sets import RangeSet; print(RangeSet([(0, 10), (20, None)]) - RangeSet([(3, 5)]))'
    [ "$(cd "$work" && runs -c "$line")" = "0..3, 5..10, 20.." ]
}

# The types of the package, and of a program that uses it.
types_hold() {
    "$venv" -m mypy --cache-dir="$work/mypy" src/range_sets &&
        (cd "$work" && "$venv" -m mypy --cache-dir=mypy --config-file="$here/pyproject.toml" "$here/tests/typed.py")
}

# What the compiled module needs at run time, beside the interpreter that loads it.
links_libc_alone() {
    local module needed
    module=$(cd "$work" && "$venv" -c 'import range_sets._core; print(range_sets._core.__file__)')
    needed=$(readelf --dynamic --wide "$module" | sed -n 's/.*(NEEDED).*\[\(.*\)\]/\1/p')
    echo "$needed"
    [ "$needed" = libc.so.6 ]
}

# What flake8 says of the sources, but for lines, which may be longer, and for slices, which black writes with blanks.
looks_right() {
    "$venv" -m flake8 --max-line-length=160 --extend-ignore=E203 .
}

# Whether black would write the sources as they are. Its version 24 writes overloads in another way.
is_formatted() {
    "$venv" -m black --check .
}

# Builds a wheel of the source distribution alone.
builds_from_source() {
    mkdir "$work/source" "$work/wheels" &&
        "$venv" -c "import backend; backend.build_sdist('$work/source')" &&
        (cd "$work" && "$venv" -m pip wheel --no-index --quiet --wheel-dir=wheels source/*.tar.gz && ls wheels/*.whl)
}

# Installs a wheel of the source distribution over what cargo builds, in a venv of its own, and runs the examples over it. Cargo finds
# the crates that Debian packages. The layer in C is the same, and tests/c.sh compares what lies under it.
packages=/usr/share/cargo/registry
installs_by_cargo() {
    export RANGE_SETS_LIBRARY=rust
    export CARGO="cargo --offline --config 'source.crates-io.replace-with=\"debian\"' --config 'source.debian.directory=\"$packages\"'"
    venv=$work/by_cargo/bin/python
    "$python" -m venv --system-site-packages "$work/by_cargo" &&
        "$venv" -m pip install --no-index --quiet "$work"/source/*.tar.gz && has_no_proved_code && prints_the_difference &&
        tests -p test_examples.py
}

# Whether the module is the one that cargo built: Rust's library leaves its sentences in it.
has_no_proved_code() {
    grep -q 'RUST_BACKTRACE' "$(cd "$work" && "$venv" -c 'import range_sets._core; print(range_sets._core.__file__)')" || {
        echo "the module isn't the one that cargo built"
        return 1
    }
}

skip() {
    skipped=$((skipped + 1))
    echo "$name: SKIPPED: $1: $2"
}

# Runs a step that wants modules, by what they are, their Debian packages, and the step.
step_with() {
    local modules=$1 packages=$2
    shift 2
    if has "$venv" "$modules"; then
        step "$@"
    else
        skip "$1" "$python has no $modules; on Debian: $packages"
    fi
}

# The newest Python at hand that can make a venv and compile, and of which a condition holds: of those on the path and pyenv's.
another() {
    local python
    ls -d "${PYENV_ROOT:-$HOME/.pyenv}"/versions/*/bin/python3 2>/dev/null | sort -rV | cat <(printf 'python3.%s\n' 14 14t 13 13t 12) - |
        while read -r python; do
            if has "$python" "ensurepip, os, sys, sysconfig
os.stat(sysconfig.get_path('include') + '/Python.h')
sys.exit(not ($1))"; then
                echo "$python"
                return
            fi
        done
}

# Runs a step by another Python, which is installed for that.
by_another() {
    local what=$1 condition=$2 python venv
    shift 2
    python=$(another "$condition")
    if [ -z "$python" ]; then
        skip "$what" "no such Python is at hand"
        return
    fi
    venv=$work/another/bin/python
    step "$what" installs_and "$@"
    rm -rf "$work/another"
}

installs_and() {
    "$python" -m venv "$work/another" && "$venv" -m pip install --no-index --quiet "$here" && "$@"
}

# Interpreters with locks of their own come with 3.12.
has_own_locks="sys.version_info >= (3, 12) and not sysconfig.get_config_var('Py_GIL_DISABLED')"
has_no_lock="sysconfig.get_config_var('Py_GIL_DISABLED')"

echo "$name: by $("$python" -c 'import sys; print(sys.executable, sys.version.split()[0])')"
has "$python" ensurepip || {
    echo "$name: SKIPPED: $python can't make a venv; on Debian the package python3-venv brings that"
    exit 77
}
has "$python" "sysconfig, os; os.stat(sysconfig.get_path('include') + '/Python.h')" || {
    echo "$name: SKIPPED: $python has no Python.h; on Debian the package python3-dev brings it"
    exit 77
}
step "it is installed" installs
if [ "${1:-}" = --more ]; then
    by_another "the tests by a Python from 3.12 on" "$has_own_locks" tests
    MOST=1200
    export RANGE_SETS_EXAMPLES=1000 RANGE_SETS_SECONDS=20 RANGE_SETS_TEXTS=400000 RANGE_SETS_PICKLES=185000
    step "threads and processes" tests -p test_processes.py
    step_with hypothesis python3-hypothesis "long runs of made-up cases" tests -p with_hypothesis.py
    step "made-up texts" tests -p test_texts.py
    step "damaged pickles" tests -p test_pickles.py
    step_with "dask.bag, distributed, numpy" "python3-dask python3-distributed python3-numpy" \
        "the example on two processes" runs examples/received.py --ranges 100000
    step "a wheel of the source distribution" builds_from_source
    if ls -d "$packages"/{smallvec,serde_json}-[0-9]* >/dev/null 2>&1; then
        step_by cargo cargo "a wheel over what cargo builds, and the examples over it" installs_by_cargo
    else
        skip "a library that cargo builds" "the crates smallvec, serde_json aren't there; on Debian: librust-smallvec-dev librust-serde-json-dev"
    fi
    step_with "intervaltree, sortedcontainers, netaddr" "python3-intervaltree python3-sortedcontainers python3-netaddr" \
        "the benchmark's answers" runs bench.py --pairs 2000
    ended
fi
[ "$(uname)" != Linux ] || step_by readelf binutils "it links libc alone" links_libc_alone
step "the first line of the page" prints_the_difference
step "the tests" tests
step_with numpy python3-numpy "the tests with numpy" tests -p with_numpy.py
step_with pandas python3-pandas "the tests with pandas" tests -p with_pandas.py
step_with pandas python3-pandas "tables and masks" tests -p with_tables.py
if command -v initdb >/dev/null || ls /usr/lib/postgresql/*/bin/initdb >/dev/null 2>&1; then
    step "the tests beside PostgreSQL" tests -p with_postgres.py
    has "$venv" psycopg || skip "what psycopg makes of multiranges" "$python has no psycopg; on Debian: python3-psycopg"
else
    skip "the tests beside PostgreSQL" "its server is missing; on Debian: postgresql"
fi
if command -v chromedriver >/dev/null; then
    step_with selenium python3-selenium "pictures in Chromium" tests -p with_chromium.py
else
    step_by chromedriver chromium-driver "pictures in Chromium"
fi
step_with hypothesis python3-hypothesis "the tests with hypothesis" tests -p with_hypothesis.py
step_with dask.bag python3-dask "the tests with dask" tests -p with_dask.py
step_with mypy python3-mypy "the types" types_hold
step_with flake8 python3-flake8 "what flake8 says" looks_right
if has "$venv" "black, sys; sys.exit(not black.__version__.startswith('23.'))"; then
    step "the looks" is_formatted
else
    skip "the looks" "$python has no black 23; on Debian: black"
fi
by_another "interpreters with locks of their own" "$has_own_locks" tests -p test_interpreters.py
by_another "a Python without the lock" "$has_no_lock" tests
for page in ../README.md README.md; do
    step "the lines in Python of $page" runs_page "$page" python
done
step_with numpy python3-numpy "the lines of the page with numpy" runs_page README.md python numpy
step_with pandas python3-pandas "the lines of the page with pandas" runs_page README.md python pandas
step_with dask.bag python3-dask "the lines of the page with dask" runs_page README.md python dask
ended
