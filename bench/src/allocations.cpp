// These stand in front of glibc's own, which do the work.
#include "allocations.hpp"

extern "C" {
void* __libc_malloc(std::size_t);
void* __libc_calloc(std::size_t, std::size_t);
void* __libc_realloc(void*, std::size_t);
}

namespace {

Allocations counted;

} // namespace

Allocations allocations_so_far() {
    return counted;
}

extern "C" void* malloc(std::size_t bytes) noexcept {
    counted.mallocs++;
    counted.bytes += bytes;
    return __libc_malloc(bytes);
}

extern "C" void* calloc(std::size_t count, std::size_t each) noexcept {
    counted.mallocs++;
    counted.bytes += count * each;
    return __libc_calloc(count, each);
}

extern "C" void* realloc(void* block, std::size_t bytes) noexcept {
    counted.reallocs++;
    counted.bytes += bytes;
    return __libc_realloc(block, bytes);
}
