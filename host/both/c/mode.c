/* The floating-point mode of a thread, for the tests in Rust: the register MXCSR of x86-64. */
#include <stdbool.h>
#include <stdint.h>
#include <xmmintrin.h>

/* Sets it, and answers what it was. */
uint32_t mode_set(uint32_t bits) {
    const uint32_t before = _mm_getcsr();
    _mm_setcsr(bits);
    return before;
}

/* What the processor itself makes of two floats, so that a test sees that a mode is set. */
bool mode_less(double x, double y) { return x < y; }
double mode_sum(double x, double y) { return x + y; }
