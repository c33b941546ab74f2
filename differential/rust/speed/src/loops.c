// The check by plain C loops, byte by byte and eight bytes at a time: what the proved one is held against beside the
// Rust. And how much stack a call takes.
#include <stddef.h>
#include <stdint.h>
#include <string.h>
#include <ucontext.h>

static uint16_t table[8][256];

void loops_make(void) {
    for (unsigned i = 0; i < 256; i++) {
        uint16_t c = (uint16_t)(i << 8);
        for (int k = 0; k < 8; k++) c = (uint16_t)((c & 0x8000) ? (c << 1) ^ 0x1021 : c << 1);
        table[0][i] = c;
    }
    for (int k = 1; k < 8; k++)
        for (unsigned i = 0; i < 256; i++) {
            uint16_t c = table[k - 1][i];
            table[k][i] = (uint16_t)((c << 8) ^ table[0][c >> 8]);
        }
}

uint16_t loops_bytewise(uint16_t crc, const uint8_t *bytes, size_t length) {
    for (size_t i = 0; i < length; i++) crc = (uint16_t)((crc << 8) ^ table[0][(uint8_t)((crc >> 8) ^ bytes[i])]);
    return crc;
}

uint16_t loops_by_eight(uint16_t crc, const uint8_t *bytes, size_t length) {
    size_t i = 0;
    for (; i + 8 <= length; i += 8) {
        const uint8_t *b = bytes + i;
        crc = table[7][(uint8_t)(crc >> 8) ^ b[0]] ^ table[6][(uint8_t)crc ^ b[1]] ^ table[5][b[2]] ^ table[4][b[3]] ^ table[3][b[4]] ^
              table[2][b[5]] ^ table[1][b[6]] ^ table[0][b[7]];
    }
    return loops_bytewise(crc, bytes + i, length - i);
}

static uint8_t stack[1 << 18];
static ucontext_t here, there;
static void (*called)(const void *);
static const void *given;

static void begin(void) { called(given); }

// Bytes of a fresh stack that a call changes, from its top to the lowest.
size_t loops_stack(void (*call)(const void *), const void *with) {
    memset(stack, 0xA5, sizeof stack);
    called = call;
    given = with;
    if (getcontext(&there)) return 0;
    there.uc_stack.ss_sp = stack;
    there.uc_stack.ss_size = sizeof stack;
    there.uc_link = &here;
    makecontext(&there, begin, 0);
    if (swapcontext(&here, &there)) return 0;
    size_t lowest = 0;
    while (lowest < sizeof stack && stack[lowest] == 0xA5) lowest++;
    return sizeof stack - lowest;
}
