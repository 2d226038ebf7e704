/*
 * versus BEFORE NOW [ROUNDS]: times two builds of the library, shared objects with the calls of bindings/c/sim0mq.h, in
 * one process. In each round both are timed, in turns; a row shows the time of the first, the median of the rounds'
 * ratios (above 1 the second is slower) and their quartiles. The field table is long enough for rows of six numbers, so
 * that a build whose rows have five is served too.
 */
#include <dlfcn.h>
#include <stdint.h>
#include <stdio.h>
#include <stdlib.h>
#include <string.h>
#include <time.h>

enum { MOST_ROUNDS = 1001, ROOM = 40000, FIELDS = 256, TABLE = 6 * FIELDS, ROUND_NANOS = 400000 };

typedef struct {
    uint32_t (*read)(const uint8_t *, size_t, uint32_t *, size_t, uint64_t *, size_t);
    uint32_t (*blank)(const uint8_t *, size_t, uint8_t *, size_t, uint64_t *, size_t);
    uint32_t (*value)(const uint8_t *, size_t, uint64_t, uint64_t *, size_t);
    uint32_t (*open)(const uint8_t *, size_t, int64_t, uint8_t, uint64_t, uint8_t, uint8_t, uint8_t *, size_t, uint64_t *, size_t);
    uint32_t (*add)(uint64_t, uint64_t, uint64_t, uint8_t, const uint8_t *, size_t, uint8_t *, size_t, uint64_t *, size_t);
    uint32_t (*close)(uint64_t, uint64_t, uint64_t, uint8_t, uint64_t *, size_t);
} Library;

/* A message, and where each of its encoded fields begins; the one after the last begins at its end. */
typedef struct {
    const char *name;
    uint8_t bytes[ROOM];
    size_t length, fields, begins[FIELDS + 1];
} Message;

enum { READ, BLANK, WRITE, ASK, CALLS };
static const char *const CALL[CALLS] = {"read", "blank", "write", "ask the last of"};

static volatile uint32_t said;

static double now(void) {
    struct timespec t;
    clock_gettime(CLOCK_MONOTONIC, &t);
    return 1e9 * (double)t.tv_sec + (double)t.tv_nsec;
}

/* The calls of the library in this file; none of them where it cannot be loaded. */
static Library load(const char *path) {
    Library l;
    memset(&l, 0, sizeof l);
    void *file = dlopen(path, RTLD_NOW | RTLD_LOCAL);
    if (file == NULL) {
        fprintf(stderr, "%s\n", dlerror());
        return l;
    }
    *(void **)&l.read = dlsym(file, "sim0mq_read");
    *(void **)&l.blank = dlsym(file, "sim0mq_blank");
    *(void **)&l.value = dlsym(file, "sim0mq_value");
    *(void **)&l.open = dlsym(file, "sim0mq_open");
    *(void **)&l.add = dlsym(file, "sim0mq_add");
    *(void **)&l.close = dlsym(file, "sim0mq_close");
    return l;
}

/* A message with the header of the manual's example, for this many fields. */
static Message *begun(const char *name, size_t fields) {
    static const char header[] = "\x09\0\0\0\x05SIM01\x09\0\0\0\x09IDVV.14.2\x09\0\0\0\x04MC.1\x09\0\0\0\x05MM1.4\x09\0\0\0\x06" "DSOL.3"
                                 "\x03\0\0\0\0\0\0\0\x7C\0\x02\x01";
    Message *m = calloc(1, sizeof *m);
    if (m == NULL) {
        exit(2);
    }
    memcpy(m->bytes, header, sizeof header - 1);
    m->bytes[66] = (uint8_t)(fields >> 8);
    m->bytes[67] = (uint8_t)fields;
    m->name = name;
    m->length = 68;
    m->begins[0] = 68;
    return m;
}

static void put(Message *m, const uint8_t *bytes, size_t n) {
    memcpy(m->bytes + m->length, bytes, n);
    m->length += n;
}

static void fill(Message *m, uint8_t byte, size_t n) {
    memset(m->bytes + m->length, byte, n);
    m->length += n;
}

static void end_field(Message *m) { m->begins[++m->fields] = m->length; }

static Message *byte_fields(const char *name, uint8_t last_code) {
    Message *m = begun(name, FIELDS);
    for (int i = 0; i < FIELDS; i++) {
        const uint8_t field[2] = {i == FIELDS - 1 ? last_code : 0, (uint8_t)i};
        put(m, field, 2);
        end_field(m);
    }
    return m;
}

/* An array of this code with so many elements of so many bytes each. */
static Message *array(const char *name, uint8_t code, uint32_t count, size_t width, uint8_t byte) {
    Message *m = begun(name, 1);
    const uint8_t head[5] = {code, 0, 0, (uint8_t)(count >> 8), (uint8_t)count};
    put(m, head, 5);
    fill(m, byte, width * count);
    end_field(m);
    return m;
}

/* A matrix of one row of floats with these marks, over and over, one to a column. */
static Message *columns(const char *name, uint32_t count, const uint8_t marks[][5], size_t kinds) {
    Message *m = begun(name, 1);
    const uint8_t head[9] = {31, 0, 0, 0, 1, 0, 0, (uint8_t)(count >> 8), (uint8_t)count};
    put(m, head, 9);
    for (uint32_t i = 0; i < count; i++) {
        put(m, marks[i % kinds] + 1, marks[i % kinds][0]);
    }
    fill(m, 0x41, 4 * count);
    end_field(m);
    return m;
}

/* Makes a call this many times. */
static void run(const Library *l, int call, const Message *m, long times) {
    static uint32_t table[TABLE];
    static uint64_t a[21];
    static uint8_t out[ROOM];
    for (long t = 0; t < times; t++) {
        if (call == READ) {
            said = l->read(m->bytes, m->length, table, TABLE, a, 21);
        } else if (call == BLANK) {
            said = l->blank(m->bytes, m->length, out, ROOM, a, 3);
        } else if (call == ASK) {
            said = l->value(m->bytes, m->length, m->fields - 1, a, 7);
        } else {
            l->open(m->bytes + 10, 44, 124, 2, m->fields, 1, 1, out, ROOM, a, 7);
            for (size_t i = 0; i < m->fields; i++) {
                l->add(a[3], a[4], a[5], (uint8_t)a[6], m->bytes + m->begins[i], m->begins[i + 1] - m->begins[i], out, ROOM, a, 7);
            }
            said = l->close(a[3], a[4], a[5], (uint8_t)a[6], a, 7);
        }
    }
}

static int by_size(const void *a, const void *b) {
    const double x = *(const double *)a, y = *(const double *)b;
    return (x > y) - (x < y);
}

static void row(const Library both[2], int call, const Message *m, int rounds) {
    static double ratios[MOST_ROUNDS], nanos[MOST_ROUNDS];
    long times = 1;
    for (double taken = 0; taken < ROUND_NANOS; times *= 2) {
        const double start = now();
        run(&both[0], call, m, times);
        taken = now() - start;
    }
    for (int i = 0; i < rounds; i++) {
        double taken[2];
        for (int turn = 0; turn < 2; turn++) {
            const int who = (i + turn) % 2;
            const double start = now();
            run(&both[who], call, m, times);
            taken[who] = now() - start;
        }
        ratios[i] = taken[1] / taken[0];
        nanos[i] = taken[0] / (double)times;
    }
    qsort(ratios, (size_t)rounds, sizeof *ratios, by_size);
    qsort(nanos, (size_t)rounds, sizeof *nanos, by_size);
    printf("%-16s%-32s%10.1f%8.3f%8.3f%8.3f\n", CALL[call], m->name, nanos[rounds / 2], ratios[rounds / 2], ratios[rounds / 4], ratios[3 * rounds / 4]);
}

int main(int count, char **words) {
    static const uint8_t all[][5] = {{2, 16, 11}, {2, 26, 3}, {3, 100, 3, 0xD2}, {4, 101, 3, 0xD2, 21}}, money[][5] = {{3, 100, 3, 0xD2}, {4, 101, 3, 0xD2, 21}};
    const int rounds = count > 3 ? atoi(words[3]) : 61;
    if (count < 3 || rounds < 1 || rounds > MOST_ROUNDS) {
        fprintf(stderr, "usage: versus BEFORE NOW [ROUNDS, at most %d]\n", MOST_ROUNDS);
        return 2;
    }
    const Library both[2] = {load(words[1]), load(words[2])};
    if (both[0].close == NULL || both[1].close == NULL) {
        return 2;
    }
    Message *s = begun("S", 1);
    put(s, (const uint8_t *)"\x05\x3F\xC9\x99\x99\x99\x99\x99\x9A", 9);
    end_field(s);
    Message *messages[] = {s, byte_fields("256 byte fields", 0), array("4,000 doubles", 16, 4000, 8, 0x3F), array("32,000 Booleans", 17, 32000, 1, 1),
                           columns("4,000 columns with marks", 4000, all, 4), columns("4,000 columns with money", 4000, money, 2),
                           byte_fields("256 byte fields, the last refused", 33)};
    printf("%-48s%10s%8s%8s%8s\n", "", "ns", "ratio", "lower", "upper");
    for (int call = READ; call < ASK; call++) {
        for (size_t i = 0; i < sizeof messages / sizeof *messages; i++) {
            row(both, call, messages[i], rounds);
        }
    }
    row(both, ASK, messages[1], rounds);
    return 0;
}
