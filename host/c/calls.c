/*
 * Every call of zgy.h from C and from C++: that the header compiles as both, that structs cross the boundary as declared, and what
 * a refused call answers besides its number. Expected numbers are the worked numbers of docs/FORMAT.md, or counted by hand.
 */
#include "zgy.h"

#include <stdio.h>
#include <stdlib.h>
#include <string.h>

static int failures = 0;

static void check(int holds, const char *what, int line)
{
    if (!holds) {
        fprintf(stderr, "calls.c:%d: %s\n", line, what);
        failures++;
    }
}

#define CHECK(condition) check((condition), #condition, __LINE__)

/* int8, side 4, size (3, 4, 2): one brick of 64 bytes, and headers of 2,431 bytes with a text of five zeros. */
enum { HEADERS = 2431, BRICK = 64, FIRST = 2432, LENGTH = FIRST + BRICK, ROOM = 3000 };

static const uint8_t empty_text[5] = {0, 0, 0, 0, 0};
static const uint8_t five[15] = {'o', 'n', 'e', 0, 't', 'w', 'o', 0, 0, '4', 0, 'f', 'i', 'v', 0};

static uint32_t bits(float x)
{
    uint32_t n;
    memcpy(&n, &x, 4);
    return n;
}

static ZgyDescription described(void)
{
    ZgyDescription d;
    int n;
    memset(&d, 0, sizeof d);
    for (n = 0; n < 3; n++) {
        d.side[n] = 4;
        d.orig[n] = bits(16777216.0f);
        d.inc[n] = bits(1.0f);
    }
    d.size[0] = 3;
    d.size[1] = 4;
    d.size[2] = 2;
    d.range[0] = bits(-1280.0f);
    d.range[1] = bits(1270.0f);
    d.dataid[0] = 7;
    d.vfactor = UINT64_C(0x1122334455667788);
    return d;
}

static ZgyRegion region(uint32_t level, uint32_t i, uint32_t j, uint32_t k, uint32_t ni, uint32_t nj, uint32_t nk)
{
    ZgyRegion g;
    g.level = level;
    g.start[0] = i;
    g.start[1] = j;
    g.start[2] = k;
    g.count[0] = ni;
    g.count[1] = nj;
    g.count[2] = nk;
    return g;
}

static void opening(uint8_t *file)
{
    ZgyOpened o = zgy_open(file, LENGTH);
    ZgyOpened refused = zgy_open(file, 345);
    CHECK(o.number == ZGY_TAKEN && o.entry == 0);
    CHECK(o.cube.version == 3 && o.cube.text == 5 && o.cube.header == HEADERS && o.cube.length == LENGTH);
    CHECK(o.cube.levels == 1 && o.cube.bricks == 1 && o.cube.alphas == 1);
    CHECK(o.cube.description.dataid[0] == 7 && o.cube.description.vfactor == UINT64_C(0x1122334455667788));
    CHECK(o.cube.grid.min == -1280.0f && o.cube.grid.max == 1270.0f && o.cube.grid.orig[2] == 16777216.0f);
    CHECK(refused.number == ZGY_REFUSED_SHORT && refused.entry == 0);
    CHECK(refused.cube.version == 0 && refused.cube.header == 0 && refused.cube.bricks == 0 && refused.cube.length == 0);
}

static void kinds_and_views(const uint8_t *file, ZgyRecord cube)
{
    uint8_t filler[BRICK];
    ZgyKind k = zgy_brick_kind(file, LENGTH, cube, 0);
    ZgyKind none = zgy_brick_kind(file, LENGTH, cube, 1);
    ZgyView v = zgy_brick_view(file, LENGTH, filler, 0, cube, 0);
    ZgyView nowhere = zgy_brick_view(file, LENGTH, filler, 0, cube, 9);
    CHECK(k.number == 0 && k.kind == ZGY_STORED && k.offset == FIRST && k.value == 0.0);
    CHECK(none.number == ZGY_REFUSED_INDEX && none.kind == 0 && none.offset == 0 && none.value == 0.0);
    CHECK(v.number == 0 && v.source == ZGY_IN_FILE && v.offset == FIRST && v.length == BRICK);
    CHECK(nowhere.number == ZGY_REFUSED_INDEX && nowhere.source == ZGY_NOWHERE && nowhere.length == 0);
}

static void samples(uint8_t *file, ZgyRecord cube)
{
    static const uint8_t input[4] = {0x80, 0x00, 0x01, 0x7f};
    uint8_t raw[5] = {9, 9, 9, 9, 9};
    double floats[5] = {9, 9, 9, 9, 9};
    ZgyRegion g = region(0, 1, 2, 0, 1, 2, 2);
    ZgyDone wrote = zgy_write(file, LENGTH, input, 4, cube, g);
    ZgyDone read = zgy_read_raw(raw, 5, file, LENGTH, cube, g);
    ZgyDone decoded = zgy_read_float(floats, 5, file, LENGTH, cube, g);
    ZgyDone refused = zgy_read_raw(raw, 3, file, LENGTH, cube, g);
    CHECK(wrote.number == 0 && wrote.count == 4);
    CHECK(file[FIRST + (1 * 4 + 2) * 4] == 0x80 && file[FIRST + (1 * 4 + 3) * 4 + 1] == 0x7f);
    CHECK(read.number == 0 && read.count == 4 && memcmp(raw, input, 4) == 0 && raw[4] == 9);
    CHECK(decoded.number == 0 && decoded.count == 4);
    CHECK(floats[0] == -1280.0 && floats[1] == 0.0 && floats[2] == 10.0 && floats[3] == 1270.0 && floats[4] == 9.0);
    CHECK(refused.number == ZGY_REFUSED_ROOM && refused.count == 0);
    CHECK(zgy_write(file, LENGTH, input, 4, cube, region(1, 0, 0, 0, 1, 1, 1)).number == ZGY_REFUSED_LEVEL);
    cube.levels = 2;
    CHECK(zgy_read_float(floats, 5, file, LENGTH, cube, g).number == ZGY_REFUSED_RECORD);
}

static void positions(ZgyRecord cube)
{
    ZgyPosition p = zgy_position(cube, 1, 3);
    ZgyPosition none = zgy_position(cube, 3, 0);
    CHECK(p.number == 0 && p.value == 16777219.0);
    CHECK(none.number == ZGY_REFUSED_INDEX && none.value == 0.0);
}

static void strings(void)
{
    static uint8_t file[ROOM];
    ZgyDone made = zgy_make(file, ROOM, described(), five, sizeof five, ZGY_FILL_CONSTANT);
    ZgyRecord cube = zgy_open(file, made.count).cube;
    ZgyString two = zgy_string(file, made.count, cube, 1);
    ZgyString empty = zgy_string(file, made.count, cube, 2);
    ZgyString sixth = zgy_string(file, made.count, cube, 5);
    ZgyString refused = zgy_string(file, made.count - 1, cube, 0);
    CHECK(made.number == 0 && made.count == HEADERS + 10);
    CHECK(two.number == 0 && two.found == 1 && two.offset == 350 && two.length == 3);
    CHECK(empty.number == 0 && empty.found == 1 && empty.length == 0);
    CHECK(sixth.number == 0 && sixth.found == 0 && sixth.length == 0);
    CHECK(refused.number == ZGY_REFUSED_RECORD && refused.found == 0);
}

/* The first sample of inline i. */
static uint8_t sample(const uint8_t *file, ZgyRecord cube, uint32_t level, uint32_t i)
{
    uint8_t found = 99;
    ZgyDone read = zgy_read_raw(&found, 1, file, (size_t)cube.length, cube, region(level, i, 0, 0, 1, 1, 1));
    CHECK(read.number == 0 && read.count == 1);
    return found;
}

/*
 * Size (9, 4, 4), side 4: 1 brick at level 2, 2 at level 1 and 3 at level 0, side by side along inline, and headers of 2,511 bytes.
 * Entry n is made the constant n: entry 0 is level 2's, 1 and 2 are level 1's, 3 to 5 level 0's.
 */
static void entries(void)
{
    enum { BRICKS = 6, END = 2511, TABLE = END - 8 * BRICKS };
    static const uint8_t one[1] = {77};
    static uint8_t file[ROOM];
    ZgyDescription d = described();
    ZgyDone made, refused;
    ZgyRecord cube;
    int n;
    d.size[0] = 9;
    d.size[1] = 4;
    d.size[2] = 4;
    made = zgy_make(file, ROOM, d, empty_text, sizeof empty_text, ZGY_FILL_CONSTANT);
    CHECK(made.number == 0 && made.count == END);
    for (n = 0; n < BRICKS; n++) {
        CHECK(file[TABLE + 8 * n] == 0 && file[TABLE + 8 * n + 7] == 0x80);
        file[TABLE + 8 * n] = (uint8_t)n;
    }
    cube = zgy_open(file, END).cube;
    CHECK(cube.levels == 3 && cube.bricks == BRICKS && cube.alphas == BRICKS && cube.header == END);
    CHECK(sample(file, cube, 2, 0) == 0 && sample(file, cube, 2, 2) == 0);
    CHECK(sample(file, cube, 1, 0) == 1 && sample(file, cube, 1, 4) == 2);
    CHECK(sample(file, cube, 0, 0) == 3 && sample(file, cube, 0, 4) == 4 && sample(file, cube, 0, 8) == 5);
    CHECK(zgy_brick_kind(file, END, cube, 5).value == 5.0);
    refused = zgy_write(file, END, one, 1, cube, region(1, 4, 0, 0, 1, 1, 1));
    CHECK(refused.number == ZGY_REFUSED_NOT_STORED && refused.entry == 2 && refused.count == 0);
}

/* Sides (16, 16, 4), place (9, 3, 2): subtiled 558, plain 590. */
static void permutations(void)
{
    static uint8_t plain[1025], subtiled[1025];
    ZgyDone there, back;
    plain[590] = 1;
    subtiled[1024] = 5;
    there = zgy_to_subtiled(subtiled, 1025, plain, 1024, 16, 16, 4, 1);
    CHECK(there.number == 0 && there.count == 1024 && subtiled[558] == 1 && subtiled[590] == 0 && subtiled[1024] == 5);
    plain[590] = 0;
    back = zgy_to_plain(plain, 1024, subtiled, 1025, 16, 16, 4, 1);
    CHECK(back.number == 0 && plain[590] == 1 && plain[558] == 0);
    CHECK(zgy_to_plain(plain, 1024, subtiled, 1024, 4, 16, 4, 1).number == ZGY_REFUSED_SUBTILES);
}

int main(void)
{
    static uint8_t file[ROOM];
    ZgyDone made = zgy_make(file, ROOM, described(), empty_text, sizeof empty_text, ZGY_FILL_STORED);
    ZgyRecord cube;
    CHECK(made.number == 0 && made.entry == 0 && made.count == LENGTH);
    CHECK(zgy_make(file, ROOM, described(), empty_text, 4, ZGY_FILL_STORED).number == ZGY_REFUSED_TEXT_LENGTH);
    cube = zgy_open(file, LENGTH).cube;
    opening(file);
    kinds_and_views(file, cube);
    samples(file, cube);
    positions(cube);
    strings();
    entries();
    permutations();
    if (failures == 0) {
        puts("calls.c: every call answers as the header says");
    }
    return failures == 0 ? EXIT_SUCCESS : EXIT_FAILURE;
}
