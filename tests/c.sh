#!/usr/bin/env bash
# Looks how the sources look. Compiles the layer in C, links it with the proved object of dist/, and runs the tests, the example
# and the lines of the pages in C over it, under valgrind too; the tests of the header for C++17; and the header as C99 and as C++11
# without a warning. Over the archive in dist/ as it is it runs the tests, and the example against what 'make install' leaves, found
# by pkg-config and by CMake. Then the same tests, example and installation over the library that cargo builds of the Rust crate,
# without a network.
#
#   tests/c.sh           these
#   tests/c.sh --rust    those over the library that cargo builds alone
#   tests/c.sh --more    the tests as each language by each compiler, under both sanitizers, and a fuzzer for a minute; and
#                        the library that cargo builds under valgrind, and beside the proved one
#
# Its last line is 'N passed, M failed, K skipped'. It ends with 77 where gcc is missing.
set -u
export LC_ALL=C
cd "$(dirname "$0")/.." || exit 1
. tests/steps.sh

needs gcc gcc
work=$(mktemp -d) || exit 1
trap 'rm -rf "$work"' EXIT
strict="-Wall -Wextra -Wpedantic -Wconversion -Werror -Ic/include"
archive=dist/librange_set.a
version=$(awk '$2 == "RANGE_SET_VERSION" { gsub("\"", ""); print $3 }' c/include/range_set.h)

# The checksum.
is_whole() {
    (cd dist && sha256sum --quiet -c SHA256SUMS)
}

# No line of the header is longer than 120 characters.
is_narrow() {
    [ -s c/include/range_set.h ] && ! grep -n '.\{121\}' c/include/range_set.h
}

# What clang-format 14 says of the C and C++ of c/ and bench/, each by the .clang-format of its folder.
looks_right() {
    clang-format --dry-run --Werror c/*.[ch] c/tests/* c/examples/* bench/src/* bench/peers/*.c bench/peers/*.h bench/peers/*.cpp bench/peers/*.hpp
}

# No name stands in the library for others but those of the header.
has_only_its_names() {
    [ "$(nm -g --defined-only "$archive" | awk 'NF == 3 { print $3 }' | grep -c '^range_set_')" -gt 100 ] &&
        ! nm -g --defined-only "$archive" | awk 'NF == 3 { print $3 }' | grep -v '^range_\(set\|map\)_'
}

# The check names a generated file that was edited, and fails.
names_an_edit() {
    mkdir "$work/types" && cp -r tools c "$work/types" && ln -s "$PWD/crates" "$work/types/crates" && "$work/types/tools/c-types" --check &&
        echo '/* edited */' >>"$work/types/c/include/range_set.h" && ! "$work/types/tools/c-types" --check >"$work/said" &&
        [ "$(cat "$work/said")" = 'c-types: c/include/range_set.h is not what tools/c_types says: run tools/c-types' ]
}

# What man shows: all that the header declares and says.
has_a_manual_page() {
    python3 tests/c_names.py man && ! grep -q SPDX c/range_set.3
}

# The rows that the proved calls are tested with, as far as C has calls for them.
reads_the_tables() {
    compiles c/tests/test_rows.c rows && "$work/rows" crates/range_rows/data
}

# Whether another library has the same names for others.
has_the_names_of() {
    cmp <(nm -g --defined-only "$archive" | awk 'NF == 3 { print $3 }' | sort) <(nm -g --defined-only "$1" | awk 'NF == 3 { print $3 }' | sort)
}

# Takes the proved object out of dist/: there the layer's own names are hidden, and the proved ones made visible. Its memory comes from
# the layer that it is linked with, if there is one.
takes_the_proved_object() {
    (cd "$work" && ar x "$OLDPWD/dist/librange_set.a" &&
        objcopy -w --globalize-symbol='proved_*' --localize-symbol='range_set_*' --localize-symbol='range_map_*' \
            --globalize-symbol='range_heap_*' range_set.o proved.o && objcopy -w --weaken-symbol='range_heap_*' proved.o)
}

# Compiles the layer as dist/make does, and makes an archive of it and the proved object, so that the tests see each edit of it.
builds_the_layer() {
    takes_the_proved_object && gcc -std=c99 -O2 -fPIC -ffunction-sections -fdata-sections $strict -c c/range_set.c -o "$work/layer.o" &&
        rm -f "$work/built.a" && ar rcs "$work/built.a" "$work/layer.o" "$work/proved.o"
}

# Compiles a source in C with the archive, and with what else is given.
compiles() {
    gcc -std=c99 -O2 -g $strict "$1" "$archive" "${@:3}" -o "$work/$2"
}

# The tests over dist/librange_set.a.
tests_dist() {
    compiles c/tests/test.c of_dist && "$work/of_dist" 1000
}

# The tests of sets in chunks, with each request for memory refused in turn.
refuses_memory() {
    compiles c/tests/test_refused.c refused -Wl,--wrap=malloc,--wrap=realloc && "$work/refused"
}

# Two threads that ask one set and one map; and two that search a set, of which helgrind must see that they write.
may_be_shared() {
    compiles c/tests/test_shared.c shared -lpthread &&
        valgrind -q --tool=helgrind --error-exitcode=9 "$work/shared" &&
        ! valgrind -q --tool=helgrind --error-exitcode=9 "$work/shared" writes >"$work/said" 2>&1 && grep -q 'data race' "$work/said"
}

# The same of chunked_range_set, which throws.
refuses_memory_in_cpp() {
    g++ -std=c++17 -O1 -g $strict -Wshadow c/tests/test_refused.cpp "$archive" -Wl,--wrap=malloc,--wrap=realloc -o "$work/refused.cpp" &&
        "$work/refused.cpp"
}

# What the example prints.
prints_its_lines() {
    "$work/$1" | cmp - <(printf '%s\n' ' 10%, next: 100 to 1000' ' 25%, next: 100 to 300' ' 35%, next: 200 to 300' \
        ' 40%, next: 200 to 300' ' 50%, next: 200 to 300' '100%')
}

# The allocator of addresses, and the calendar in C++, and what they print.
runs_the_allocator() {
    compiles c/examples/allocator.c allocator && "$work/allocator" | cmp - <(printf '%s\n' '400 at 1000' '300 at 1400' '200 at 1704' \
        'no 305 in a row are free' '250 at 1400' '850 are taken')
}

runs_the_calendar() {
    g++ -std=c++17 -O2 $strict "$@" c/examples/calendar.cpp "$archive" -o "$work/calendar" && prints_the_calendar
}

prints_the_calendar() {
    "$work/calendar" | cmp - <(printf '%s\n' 'Ada is busy' '11:15 to 13:00' '14:00 to 17:00' '285 minutes in all' \
        'two hours from 14:00 on')
}

# Compiles the statements and calls between backquotes in a page, one after the other, in C and in C++.
compiles_statements() {
    {
        printf '#include "range_set.h"\nint main(void)\n{\n'
        awk -F '`' '/^```/ { on = !on } !on { for (i = 2; i <= NF; i += 2) if ($i ~ /;$|^range_set_.*\)$/) print $i ";" }' "$1"
        printf 'return 0;\n}\n'
    } >"$work/lines.c"
    grep -q '^range_set_' "$work/lines.c" && gcc -std=c99 $strict -c "$work/lines.c" -o "$work/lines.o" &&
        g++ -std=c++17 $strict -x c++ -c "$work/lines.c" -o "$work/lines.o"
}

# Runs each block in C or C++ of a page, word for word: as a program of its own, or where it has no `main` as the lines of one.
runs_page() {
    local page=$1 language=$2 block
    rm -rf "$work/blocks" && mkdir "$work/blocks" && awk -v opens="\`\`\`$language" -v to="$work/blocks/" \
        '/^```/ { on = $0 == opens; n += on; next } on { print >(to n) }' "$page" && [ -s "$work/blocks/1" ] || return
    for block in "$work/blocks"/*; do
        if ! grep -q '^int main' "$block"; then
            {
                printf '#include <range_%s>\n#include <assert.h>\n' "$([ "$language" = c ] && echo set.h || echo map.hpp)"
                grep '^#include' "$block"
                echo 'int main(void) {' && grep -v '^#include' "$block" && echo '}'
            } >"$work/body" && mv "$work/body" "$block"
        fi
        mv "$block" "$work/page.$language"
        case $language in
            c) compiles "$work/page.c" page ;;
            cpp) g++ -std=c++17 $strict "$work/page.cpp" "$archive" -o "$work/page" ;;
        esac && "$work/page" || return
    done
}

# The program and the lines for CMake of a page, over what was installed.
runs_page_by_cmake() {
    local page=$1 language=$2 folder="$work/page by cmake"
    rm -rf "$folder" && mkdir "$folder" && awk -v to="$folder/my_program.$language" -v opens="\`\`\`$language" \
        '/^```/ { on = $0 == opens && !n++; next } on { print >to }' "$page" &&
        awk '/^```/ { on = $0 == "```cmake"; next } on' "$page" >"$folder/CMakeLists.txt" &&
        cmake -S "$folder" -B "$folder/build" -DCMAKE_PREFIX_PATH="$prefix" && cmake --build "$folder/build" && "$folder/build/my_program"
}

# The header in C++11, and the example in it.
compiles_as_cpp() {
    echo '#include "range_set.h"' >"$work/header.cpp"
    g++ -std=c++11 $strict -c "$work/header.cpp" -o "$work/header.o" &&
        g++ -std=c++11 -O2 $strict -x c++ c/examples/download.c -x none "$archive" -o "$work/example.cpp" && prints_its_lines example.cpp
}

# The tests of a header for C++17. Most of their time is the compiler's, and --more has it optimize them.
tests_cpp() {
    g++ -std=c++17 -O0 $strict -Wshadow "$@" "$archive" -o "$work/test.cpp" && "$work/test.cpp"
}

# Whether the header says in one sentence that a language is too old for it.
says_that_cpp_is_too_old() {
    echo '#include "range_set.hpp"' >"$work/old.cpp"
    ! g++ -std=c++14 -Ic/include -c "$work/old.cpp" -o "$work/old.o" 2>"$work/said" && [ "$(grep -c 'error:' "$work/said")" = 1 ] &&
        grep -q 'range_set.hpp is for C++17 and later' "$work/said"
}

# Whether a program of these lines isn't compiled, and the compiler says why in such words.
isnt_compiled() {
    printf '%s\n' "${@:2}" >"$work/refused.cpp"
    ! g++ -std=c++17 -Ic/include -fsyntax-only "$work/refused.cpp" 2>"$work/said" && grep -q "error: $1" "$work/said"
}

# Installs the library, and moves it into a folder with a blank in its name.
prefix="$work/a place" makes=(BACKEND=proved LIBRARY="$PWD/$archive")
installs() {
    rm -rf "$work/c" "$prefix" && cp -r c LICENSE-* "$work" && rm -rf "$work/c/build" && make -s -C "$work/c" install "${makes[@]}" PREFIX="$work/its place" &&
        mv "$work/its place" "$prefix" &&
        cmp LICENSE-MIT "$prefix/share/doc/range_set/LICENSE-MIT" &&
        cmp LICENSE-APACHE "$prefix/share/doc/range_set/LICENSE-APACHE" &&
        cmp c/CPP.md "$prefix/share/doc/range_set/CPP.md"
}

# Installs the library below a root that a package is made of, whose files may not name it.
installs_below() {
    local root=$work/root prefix=$work/usr
    make -s -C "$work/c" install "${makes[@]}" DESTDIR="$root" PREFIX="$prefix" && [ ! -e "$prefix" ] &&
        [ -s "$root$prefix/lib/librange_set.so" ] && [ -s "$root$prefix/include/range_set.h" ] &&
        cmp LICENSE-MIT "$root$prefix/share/doc/range_set/LICENSE-MIT" && ! grep -rFI "$root" "$root"
}

# Builds the library by cargo, which finds the crates that Debian packages.
packages=/usr/share/cargo/registry
offline="--offline --config 'source.crates-io.replace-with=\"debian\"' --config 'source.debian.directory=\"$packages\"'"
builds_by_cargo() {
    rm -rf "$work/by_cargo" && cp -r c "$work/by_cargo" && rm -rf "$work/by_cargo/build" &&
        make -s -C "$work/by_cargo" build/librange_set.a BACKEND=rust RUST="$PWD/rust" CARGO="cargo $offline"
}

# Whether a make without a cargo says so in one sentence.
says_that_cargo_is_missing() {
    ! make -s -C "$work/by_cargo" build/librange_set.a BACKEND=rust RUST="$PWD/rust" CARGO=no-such-cargo --always-make \
        2>"$work/said" && head -n 1 "$work/said" | grep -qx 'range_set: no-such-cargo is missing, which builds the library here: install cargo 1.64 or later'
}

# Whether cargo and the crates that it asks for are there. What is missing is named, and what it is for is skipped.
has_cargo() {
    local missing
    if ! is_there cargo; then
        missing="cargo is missing; on Debian the package cargo brings it"
    elif ! ls -d "$packages"/{smallvec,serde_json}-[0-9]* >/dev/null 2>&1; then
        missing="the crates smallvec, serde_json aren't there; on Debian: librust-smallvec-dev librust-serde-json-dev"
    elif ! command -v make >/dev/null; then
        missing="make is missing; on Debian the package make brings it"
    else
        return 0
    fi
    skipped=$((skipped + 1))
    echo "$name: SKIPPED: the library that cargo builds: $missing"
    return 1
}

# The steps over the library that cargo builds.
over_rust() {
    has_cargo || return
    local by="by cargo"
    step "$by: the library" builds_by_cargo
    step "$by: a make without cargo" says_that_cargo_is_missing
    step "$by: its exports answer as the proved ones" answer_alike
    archive=$work/by_cargo/build/librange_set.a makes=(BACKEND=rust LIBRARY="$archive")
    step_by nm binutils "$by: the names in the library" has_only_its_names
    step "$by: they are those of dist/" has_the_names_of dist/librange_set.a
    step "$by: the tests compile" compiles c/tests/test.c test
    step "$by: memory refused" refuses_memory
    step "$by: the tests" "$work/test"
    step "$by: the rows of the tables" reads_the_tables
    step "$by: the example compiles" compiles c/examples/download.c example
    step "$by: the example" prints_its_lines example
    step_by g++ g++ "$by: the header for C++17" tests_cpp c/tests/test.cpp
    step_by g++ g++ "$by: its maps" tests_cpp c/tests/test_maps.cpp
    step "$by: make install" installs
    step_by pkg-config pkg-config "$by: a program by pkg-config" is_found_by_pkg_config
    step_by cmake cmake "$by: a program by CMake" is_found_by_cmake
    step_by readelf binutils "$by: the shared library" is_shared
    step "$by: what isn't called is dropped" drops_what_is_not_called
}

# Runs a step over what 'make install' left, by its tool as step_by does.
over_install() {
    if is_there make; then step_by "$@"; else step_by make make "$3"; fi
}

# The example against what was installed, found by pkg-config: with the shared library, and with the static one.
is_found_by_pkg_config() {
    local found
    export PKG_CONFIG_PATH="$prefix/lib/pkgconfig"
    found=$(pkg-config --cflags --libs range_set) && [ "$(pkg-config --modversion range_set)" = "$version" ] &&
        eval "gcc -std=c99 c/examples/download.c $found" -o '"$work/found"' && LD_LIBRARY_PATH="$prefix/lib" prints_its_lines found &&
        found=$(pkg-config --static --cflags --libs range_set) &&
        eval "gcc -std=c99 -static c/examples/download.c $found" -o '"$work/found"' && prints_its_lines found && is_small found
}

# The calendar in C++ against what was installed, found by pkg-config, with the header for maps.
is_found_in_cpp() {
    local found
    export PKG_CONFIG_PATH="$prefix/lib/pkgconfig"
    found=$(pkg-config --cflags --libs range_set) &&
        eval "g++ -std=c++17 -include range_map.hpp c/examples/calendar.cpp $found" -o '"$work/calendar"' &&
        LD_LIBRARY_PATH="$prefix/lib" prints_the_calendar
}

# The same example by CMake, for each of the two libraries.
is_found_by_cmake() {
    rm -rf "$work/by cmake" && mkdir "$work/by cmake" && cp c/examples/download.c "$work/by cmake" && cat >"$work/by cmake/CMakeLists.txt" <<END || return
cmake_minimum_required(VERSION 3.10)
project(example C)
find_package(range_set 0.1 QUIET)
if(range_set_FOUND)
    message(FATAL_ERROR "an older minor version, which had other calls, is met by this one")
endif()
find_package(range_set 0 REQUIRED)
find_package(range_set ${version%.*} REQUIRED)
find_package(range_set $version REQUIRED)
foreach(kind IN ITEMS range_set static)
    add_executable(by_\${kind} download.c)
    target_link_libraries(by_\${kind} range_set::\${kind})
endforeach()
END
    cmake -S "$work/by cmake" -B "$work/by cmake/build" -DCMAKE_PREFIX_PATH="$prefix" && cmake --build "$work/by cmake/build" &&
        prints_its_lines "by cmake/build/by_range_set" && prints_its_lines "by cmake/build/by_static" && is_small "by cmake/build/by_static"
}

# A program in C++ against the headers that were installed, all of them.
takes_the_installed_headers() {
    g++ -std=c++17 -I"$prefix/include" -include range_map.hpp c/examples/calendar.cpp "$prefix/lib/librange_set.a" -o "$work/found" &&
        "$work/found" | grep -qx 'Ada is busy'
}

# The names of the shared library, each call of the header and no others, which is found by its soname.
is_shared() {
    python3 tests/c_names.py "$prefix/lib/librange_set.so" &&
        ! nm -D --defined-only "$prefix/lib/librange_set.so" | awk '{ print $3 }' | grep -v '^range_\(set\|map\)_' &&
        readelf -d "$prefix/lib/librange_set.so" | grep -q "soname: \[librange_set.so.${version%.*}\]"
}

# What isn't called is dropped from a program that is linked by --gc-sections. The example calls five functions, some of which are
# those of another type under two names.
is_small() {
    [ "$(nm "$work/$1" | grep -c ' T range_set_')" -lt 10 ] && ! nm "$work/$1" | grep -q 'range_set_u64_combine$'
}

drops_what_is_not_called() {
    gcc -std=c99 -O2 -Ic/include -Wl,--gc-sections c/examples/download.c "$archive" -o "$work/small" && prints_its_lines small && is_small small
}

uninstalls() {
    make -s -C "$work/c" uninstall PREFIX="$prefix" && [ -z "$(find "$prefix" -type f)" ]
}

# The layer in C as a compiler builds it with the sanitizers, and the proved code of dist/ under it.
sane_library() {
    takes_the_proved_object && "$@" $strict -c c/range_set.c -o "$work/layer.o" && nm "$work/layer.o" | grep -q '__asan_'
}

# The tests under the sanitizers.
is_sane() {
    local flags="-std=c99 -O1 -g -fsanitize=address,undefined -fno-sanitize-recover=all"
    sane_library gcc $flags && gcc $flags $strict c/tests/test.c "$work/layer.o" "$work/proved.o" -o "$work/sane" && "$work/sane" 1000 &&
        gcc $flags $strict c/tests/test_refused.c "$work/layer.o" "$work/proved.o" -Wl,--wrap=malloc,--wrap=realloc -o "$work/sane" && "$work/sane"
}

# The tests of one language as a compiler builds them. It optimizes one C and one C++, which has views of a set: that takes four
# times as long.
builds_as() {
    local compiler=$1 language=$2 source=$3 level=-O0
    case $language in c2x | c++20) level=-O2 ;; esac
    "$compiler" -std="$language" $level $strict "$source" "$archive" -o "$work/built" && "$work/built" 2000
}

# The tests of the headers for C++ as a compiler builds them with the sanitizers.
is_sane_in_cpp() {
    local source
    for source in test test_ranges test_maps; do
        "$@" $strict c/tests/$source.cpp "$work/layer.o" "$work/proved.o" -o "$work/sane" && "$work/sane" || return
    done
}

# The tests under clang's sanitizers.
is_sane_by_clang() {
    local flags="-O1 -g -fsanitize=address,undefined -fno-sanitize-recover=all"
    sane_library clang -std=c11 $flags &&
        clang -std=c11 $flags $strict c/tests/test.c "$work/layer.o" "$work/proved.o" -o "$work/sane" && "$work/sane" 1000 &&
        is_sane_in_cpp clang++ -std=c++17 $flags
}

# The tests of the header in C++20, which has views of a set, under gcc's sanitizers.
is_sane_in_cpp20() {
    local flags="-O0 -g -fsanitize=address,undefined -fno-sanitize-recover=all"
    sane_library gcc -std=c99 $flags && is_sane_in_cpp g++ -std=c++20 $flags
}

# The layer and the header for C++ under a fuzzer, which sees what they branch on.
fuzzes() {
    local flags="-O1 -g -fsanitize=fuzzer,address,undefined -fno-sanitize-recover=all"
    sane_library clang -std=c99 -O1 -g -fsanitize=fuzzer-no-link,address,undefined -fno-sanitize-recover=all &&
        clang++ -std=c++17 $flags $strict c/tests/fuzz.cpp "$work/layer.o" "$work/proved.o" -o "$work/fuzz" &&
        (cd "$work" && ./fuzz -max_total_time=60 -max_len=64 -verbosity=0 -print_final_stats=1)
}

# Whether the twins ask each export.
asks_each_export() {
    ! grep -ohE '\bEXPORT\([a-z_]+\)' c/range_*_exports.h | sort -u | grep -vxFf <(grep -oE '\bEXPORT\([a-z_]+\)' c/tests/twins_calls.h)
}

# Compiles what asks the exports of both libraries and compares the answers, by a compiler and its flags.
twins() {
    local prefix cargo=$work/by_cargo/build/librange_sets.a
    takes_the_proved_object || return
    for prefix in proved plain; do
        "$1" -std=c99 -O1 $strict ${3-} -DPREFIX="${prefix}_" -DANSWERS="answers_of_$prefix" -c c/tests/twins.c -o "$work/$prefix.twin.o" || return
    done
    "$1" -std=c99 -O1 $strict $2 c/tests/twins_compare.c "$work"/{proved,plain}.twin.o "$work/proved.o" "$cargo" -lpthread -ldl -lm -o "$work/twins"
}

# What lies under the layer in both libraries, on inputs that are made up.
answer_alike() {
    twins gcc -DCASES=3000 && "$work/twins"
}

# The same by a fuzzer.
answer_alike_for_a_minute() {
    twins clang -fsanitize=fuzzer -fsanitize=fuzzer-no-link &&
        (cd "$work" && ./twins -max_total_time=60 -max_len=256 -len_control=0 -verbosity=0 -print_final_stats=1)
}

# Whether clang finds what a fuzzer is linked with.
has_fuzzer() {
    [ -e "$(clang --print-file-name=libclang_rt.fuzzer-x86_64.a 2>/dev/null)" ] ||
        [ -e "$(clang --print-runtime-dir 2>/dev/null)/libclang_rt.fuzzer-x86_64.a" ]
}

if [ "${1:-}" = --more ]; then
    for language in c99 c11 c17 c2x; do
        step_by gcc gcc "$language by gcc" builds_as gcc "$language" c/tests/test.c
        step_by clang clang "$language by clang" builds_as clang "$language" c/tests/test.c
    done
    for language in c++17 c++20 c++2b; do
        for source in test test_ranges test_maps; do
            step_by g++ g++ "$source in $language by g++" builds_as g++ "$language" c/tests/$source.cpp
            step_by clang++ clang "$source in $language by clang++" builds_as clang++ "$language" c/tests/$source.cpp
        done
    done
    step_by clang++ clang "clang's sanitizers" is_sane_by_clang
    step_by g++ g++ "gcc's sanitizers in C++20" is_sane_in_cpp20
    if has_fuzzer; then
        step "a fuzzer for a minute" fuzzes
    else
        skipped=$((skipped + 1))
        echo "$name: SKIPPED: a fuzzer for a minute: clang has no libFuzzer; on Debian the package libclang-rt-14-dev brings it"
    fi
    if command -v valgrind >/dev/null && has_cargo; then
        step "by cargo: the library" builds_by_cargo
        has_fuzzer && step "both libraries answer alike, by a fuzzer for a minute" answer_alike_for_a_minute
        archive=$work/by_cargo/build/librange_set.a
        step "by cargo: the tests compile" compiles c/tests/test.c test
        step "by cargo: the tests under valgrind" valgrind -q --error-exitcode=9 --leak-check=full "$work/test" 1000
        step "by cargo: a set that two threads ask" may_be_shared
    fi
    ended
fi
if [ "${1:-}" = --rust ]; then
    over_rust
    ended
fi
step_by python3 python3 "what stands once for each type is what tools/c-types writes" tools/c-types --check
step_by python3 python3 "an edit of it is named" names_an_edit
step_by python3 python3 "the layer calls what the Rust crate exports" python3 tests/c_heads.py
step "the twins ask each export" asks_each_export
step_by groff groff-base "the manual page has what the header has" has_a_manual_page
step "the lines of the header" is_narrow
if ! command -v clang-format >/dev/null || clang-format --version | grep -q 'version 14\.'; then
    step_by clang-format clang-format "the looks" looks_right
else
    skipped=$((skipped + 1))
    echo "$name: SKIPPED: the looks: clang-format 14 is wanted, and not $(clang-format --version)"
fi
step "dist/ is what its checksums say" is_whole
step_by nm binutils "the names in the library" has_only_its_names
step "the tests over it" tests_dist
step_by objcopy binutils "the layer, and the proved object under it" builds_the_layer
archive=$work/built.a
step "the tests compile" compiles c/tests/test.c test
step "the tests" "$work/test"
step "the rows of the tables" reads_the_tables
step "memory refused" refuses_memory
step "the example compiles" compiles c/examples/download.c example
step "the example" prints_its_lines example
step "an allocator of addresses" runs_the_allocator
step_by g++ g++ "a calendar in C++" runs_the_calendar
step "the lines in C of c/README.md" runs_page c/README.md c
step_by g++ g++ "the statements in c/README.md" compiles_statements c/README.md
step_by objcopy binutils "the sanitizers" is_sane
step_by g++ g++ "C++11" compiles_as_cpp
step_by g++ g++ "the header for C++17" tests_cpp c/tests/test.cpp
step_by g++ g++ "its ranges" tests_cpp c/tests/test_ranges.cpp
step_by g++ g++ "its maps, without exceptions" tests_cpp c/tests/test_maps.cpp -fno-exceptions
step_by g++ g++ "a calendar without exceptions" runs_the_calendar -fno-exceptions
step_by g++ g++ "the header for C++17: memory refused" refuses_memory_in_cpp
step_by g++ g++ "C++14" says_that_cpp_is_too_old
step_by g++ g++ "a map of values without an order" isnt_compiled \
    'static assertion failed: the values of a range_map are numbers, enums or pointers, or need an operator <' \
    '#include "range_map.hpp"' 'struct owner {};' 'range_sets::range_map<int, owner> map;'
step_by g++ g++ "a set of numbers that would be cut" isnt_compiled 'no matching function for call to .*range_set(' \
    '#include "range_set.hpp"' '#include <vector>' 'range_sets::range_set<int> set(std::vector<std::pair<double, double>>{{0.5, 2.9}});'
step_by g++ g++ "a set of values that would be cut" isnt_compiled 'no matching function for call to .*from_values(' \
    '#include "range_set.hpp"' '#include <vector>' 'auto set = range_sets::range_set<int>::from_values(std::vector<double>{2.9});'
for page in README.md c/CPP.md; do
    step_by g++ g++ "the lines in C++ of $page" runs_page "$page" cpp
done
archive=dist/librange_set.a
step_by make make "make install" installs
step_by make make "make install below a DESTDIR" installs_below
over_install pkg-config pkg-config "a program by pkg-config" is_found_by_pkg_config
over_install pkg-config pkg-config "a program in C++ by pkg-config" is_found_in_cpp
over_install cmake cmake "a program by CMake" is_found_by_cmake
over_install cmake cmake "the program of c/README.md by its CMake" runs_page_by_cmake c/README.md c
over_install cmake cmake "the program of c/CPP.md by its CMake" runs_page_by_cmake c/CPP.md cpp
over_install readelf binutils "the shared library" is_shared
over_install g++ g++ "the installed headers in C++" takes_the_installed_headers
step "what isn't called is dropped" drops_what_is_not_called
step_by make make "make uninstall" uninstalls
step_by valgrind valgrind "the tests under valgrind" valgrind -q --error-exitcode=9 --leak-check=full "$work/test" 1000
step_by valgrind valgrind "a set that two threads ask" may_be_shared
over_rust
ended
