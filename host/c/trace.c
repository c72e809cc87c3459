/* A tracing tool in small: it runs the digits call and the float writer one instruction at a time and
 * looks at the lent bytes after each. Digits have to come as a person reads them: the bytes so far are
 * the text's first, one or two more than before, and the rest is as lent. That is proved of the code
 * and not of what the compiler makes of it, so it is looked at here, in the library as it is linked. */
#define _GNU_SOURCE
#include <errno.h>
#include <inttypes.h>
#include <signal.h>
#include <stdio.h>
#include <stdlib.h>
#include <string.h>
#include <sys/ptrace.h>
#include <sys/wait.h>
#include <unistd.h>

#include "hornbillrug.h"

enum { ROOM = 96, NUMBERS = 12 };

static uint8_t buffer[ROOM];

/* What is asked for: a number's digits where the pair's base is 0, else a float's text. */
typedef struct {
    uint64_t bits;
    uint32_t radix;
    uint32_t base;
    uint32_t width;
} asked;

static size_t written(asked what, uint8_t *bytes) {
    lexical_answer answer;
    if (what.base == 0) {
        answer = lexical_write_integer(what.bits, what.radix, what.width, bytes, ROOM);
    } else {
        const lexical_format format = {
            .required_exponent_notation = true,
            .exponent = 'p',
            .decimal_point = '.',
            .mantissa_radix = what.radix,
            .exponent_base = what.base,
            .exponent_radix = 10,
            .exponent_width = what.width,
        };
        double x;
        memcpy(&x, &what.bits, sizeof x);
        answer = lexical_write_f64(x, format, bytes, ROOM);
    }
    if (answer.number != 0) {
        printf("refused %" PRIu32 " at %zu\n", answer.number, answer.place);
        exit(1);
    }
    return answer.value;
}

static void look(pid_t child, uint8_t *bytes) {
    for (size_t i = 0; i < ROOM; i += sizeof(long)) {
        const long word = ptrace(PTRACE_PEEKDATA, child, buffer + i, 0);
        memcpy(bytes + i, &word, sizeof word);
    }
}

/* Whether the child's bytes come in order, from one of its stops to the next. */
static bool in_order(pid_t child, const uint8_t *text, size_t length) {
    size_t so_far = 0;
    int status;
    for (;;) {
        ptrace(PTRACE_SINGLESTEP, child, 0, 0);
        waitpid(child, &status, 0);
        if (!WIFSTOPPED(status) || WSTOPSIG(status) == SIGSTOP) {
            return so_far == length;
        }
        uint8_t bytes[ROOM];
        look(child, bytes);
        size_t stand = 0;
        while (stand < ROOM && bytes[stand] != '#') {
            stand++;
        }
        for (size_t i = stand; i < ROOM; i++) {
            if (bytes[i] != '#') {
                return false;
            }
        }
        if (stand < so_far || stand > so_far + 2 || memcmp(bytes, text, stand) != 0) {
            return false;
        }
        so_far = stand;
    }
}

static void follow(asked what) {
    uint8_t text[ROOM];
    const size_t length = written(what, text);
    memset(buffer, '#', ROOM);
    const pid_t child = fork();
    if (child == 0) {
        if (ptrace(PTRACE_TRACEME, 0, 0, 0) != 0) {
            _exit(errno);
        }
        raise(SIGSTOP);
        written(what, buffer);
        raise(SIGSTOP);
        _exit(0);
    }
    int status;
    waitpid(child, &status, 0);
    if (!WIFSTOPPED(status)) {
        printf("left out: no process may be traced here\n");
        exit(0);
    }
    const bool good = in_order(child, text, length);
    kill(child, SIGKILL);
    waitpid(child, &status, 0);
    if (!good) {
        printf("not in order: %.*s\n", (int)length, (const char *)text);
        exit(1);
    }
}

/* Numbers of every length, by a shift register. */
static uint64_t number(int i) {
    static uint64_t x = 88172645463325252;
    x ^= x << 13;
    x ^= x >> 7;
    x ^= x << 17;
    return i == 0 ? 0 : i == 1 ? UINT64_MAX : x >> (i * 5 % 64);
}

int main(void) {
    const uint32_t radices[5] = {2, 4, 8, 16, 32};
    for (int r = 0; r < 5; r++) {
        for (int i = 0; i < NUMBERS; i++) {
            const uint64_t value = number(i);
            const uint64_t mantissa = value >> 12 | 1;
            follow((asked){value, radices[r], 0, 1 + (uint32_t)i % 4});
            follow((asked){UINT64_C(1023) << 52 | mantissa, radices[r], radices[r], 1});
        }
    }
    printf("%d numbers and as many mantissas in order\n", 5 * NUMBERS);
}
