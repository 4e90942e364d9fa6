// The loop of crates/vm_bench in C: the same program, on the same bytes, by an interpreter of the same instructions.
// Usage: vm_loop [BLOCKS]; prints what vm_bench prints.
#include <stdint.h>
#include <stdio.h>
#include <stdlib.h>
#include <string.h>

enum op { SET, ADD, LOAD, STORE, PUSH, POP, JUMP, JUMP_ZERO, JUMP_NEGATIVE, CALL };

struct operand {
    uint8_t is_register;
    int32_t value;
};

struct instr {
    enum op op;
    uint8_t r;
    uint16_t place;
    struct operand a, b;
};

struct bytes {
    uint8_t *bytes;
    size_t len;
};

struct own {
    struct bytes dat, heap, stack;
};

static uint32_t word(const uint8_t *p) {
    return (uint32_t)p[0] | (uint32_t)p[1] << 8 | (uint32_t)p[2] << 16 | (uint32_t)p[3] << 24;
}

static void set_word(uint8_t *p, uint32_t n) {
    p[0] = (uint8_t)n, p[1] = (uint8_t)(n >> 8), p[2] = (uint8_t)(n >> 16), p[3] = (uint8_t)(n >> 24);
}

static int32_t value(const struct own *own, struct operand v) {
    return v.is_register ? (int32_t)word(own->dat.bytes + 4 * v.value) : v.value;
}

static void move_on(struct own *own) {
    set_word(own->dat.bytes + 32, word(own->dat.bytes + 32) + 1);
}

static int step(struct own *own, const struct instr *code, size_t len) {
    uint8_t *dat = own->dat.bytes;
    uint32_t used = word(dat + 36);
    if (used > own->stack.len) return 0;
    uint32_t place = word(dat + 32);
    if (place >= len) return 0;
    const struct instr *i = &code[place];
    switch (i->op) {
    case SET: {
        int32_t n = value(own, i->a);
        move_on(own);
        set_word(dat + 4 * i->r, (uint32_t)n);
        return 1;
    }
    case ADD: {
        uint32_t n = word(dat + 4 * i->r) + (uint32_t)value(own, i->a);
        move_on(own);
        set_word(dat + 4 * i->r, n);
        return 1;
    }
    case LOAD: {
        int32_t address = value(own, i->a);
        if (address < 0 || (size_t)address >= own->heap.len) return 0;
        uint8_t byte = own->heap.bytes[address];
        move_on(own);
        set_word(dat + 4 * i->r, byte);
        return 1;
    }
    case STORE: {
        int32_t address = value(own, i->a);
        if (address < 0 || (size_t)address >= own->heap.len) return 0;
        uint8_t byte = (uint8_t)value(own, i->b);
        move_on(own);
        own->heap.bytes[address] = byte;
        return 1;
    }
    case PUSH: {
        if ((size_t)used + 4 > own->stack.len) return 0;
        int32_t n = value(own, i->a);
        move_on(own);
        set_word(own->stack.bytes + used, (uint32_t)n);
        set_word(dat + 36, used + 4);
        return 1;
    }
    case POP: {
        if (used < 4) return 0;
        uint32_t n = word(own->stack.bytes + used - 4);
        move_on(own);
        set_word(dat + 36, used - 4);
        set_word(dat + 4 * i->r, n);
        return 1;
    }
    case JUMP:
        set_word(dat + 32, i->place);
        return 1;
    case JUMP_ZERO:
        if (value(own, i->a) == 0)
            set_word(dat + 32, i->place);
        else
            move_on(own);
        return 1;
    case JUMP_NEGATIVE:
        if (value(own, i->a) < 0)
            set_word(dat + 32, i->place);
        else
            move_on(own);
        return 1;
    default:
        return 0;
    }
}

static unsigned run_block(struct own *own, const struct instr *code, size_t len) {
    for (unsigned count = 0; count < 256; count++)
        if (!step(own, code, len)) return count;
    return 256;
}

#define REG(n) { 1, n }
#define NUM(n) { 0, n }

static const struct instr loop[] = {
    { SET, 0, 0, NUM(0), NUM(0) },
    { LOAD, 1, 0, REG(0), NUM(0) },
    { ADD, 1, 0, REG(0), NUM(0) },
    { STORE, 0, 0, REG(0), REG(1) },
    { PUSH, 0, 0, REG(1), NUM(0) },
    { POP, 2, 0, NUM(0), NUM(0) },
    { JUMP_ZERO, 0, 8, REG(2), NUM(0) },
    { ADD, 3, 0, REG(2), NUM(0) },
    { ADD, 0, 0, NUM(1), NUM(0) },
    { SET, 4, 0, REG(0), NUM(0) },
    { ADD, 4, 0, NUM(-32768), NUM(0) },
    { JUMP_NEGATIVE, 0, 1, REG(4), NUM(0) },
    { JUMP, 0, 0, NUM(0), NUM(0) },
};

static uint32_t checksum(struct bytes b) {
    uint32_t sum = 0;
    for (size_t i = 0; i < b.len; i++) sum = sum * 31 + b.bytes[i];
    return sum;
}

static struct bytes zeros(size_t len) {
    struct bytes b = { calloc(len, 1), len };
    if (!b.bytes) exit(1);
    return b;
}

int main(int argc, char **argv) {
    unsigned long blocks = argc > 1 ? strtoul(argv[1], 0, 10) : 4;
    struct own own = { zeros(64), zeros(32768), zeros(64) };
    uint64_t done = 0;
    for (unsigned long i = 0; i < blocks; i++) done += run_block(&own, loop, sizeof loop / sizeof loop[0]);
    printf("instructions %llu\n", (unsigned long long)done);
    printf("data %u\nheap %u\nstack %u\n", checksum(own.dat), checksum(own.heap), checksum(own.stack));
    return 0;
}
