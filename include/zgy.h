/*
 * zgy.h: open, read, write and make ZGY seismic cubes that lie in memory.
 *
 * The host lends bytes and keeps them: no call allocates, keeps a pointer, does input or output, or has state between calls.
 * Link with libzgy_c.a. C99 or later, and C++11 or later, on x86-64 Linux.
 *
 * Lent buffers are a pointer, then a length in items (bytes, or doubles for zgy_read_float). A pointer must be readable for
 * that many items, writable where it is not const, aligned for its items, and not null, also where the length is 0. A buffer
 * that a call may write must not overlap any other buffer of the same call, and no other thread may use it during the call;
 * buffers that are const may be shared by any number of threads.
 *
 * Every answer starts with two numbers. `number` is 0 where the call is taken, else the refusal (ZGY_REFUSED_..): the first
 * that applies, in the order that the call lists. `entry` is the lowest entry at fault for refusals 12, 13 and 19, else 0.
 * A refused call changes no byte of any buffer, and the other fields of its answer are 0.
 *
 * Do not run with flush-to-zero or denormals-are-zero (as code linked with -ffast-math does): small floats would read as 0.
 */
#ifndef ZGY_H
#define ZGY_H

#include <stddef.h>
#include <stdint.h>

#ifdef __cplusplus
extern "C" {
#endif

/* Refusals. */
enum {
    ZGY_TAKEN = 0,
    ZGY_REFUSED_SHORT = 1,       /* the file has fewer than 346 bytes */
    ZGY_REFUSED_MAGIC = 2,       /* the file does not start with "VBS" and a zero */
    ZGY_REFUSED_VERSION = 3,     /* the version is not 2 or 3 */
    ZGY_REFUSED_SIDE = 4,        /* a brick side is not 4, 8, 16, 32 or 64 */
    ZGY_REFUSED_TYPE = 5,        /* the sample type is not 0 (int8), 2 (int16) or 6 (float32) */
    ZGY_REFUSED_SIZE = 6,        /* a size is not from 1 to 1,048,576 */
    ZGY_REFUSED_FLOATS = 7,      /* orig or inc is not finite; or, types 0 and 2, the coding range is not finite or not min < max */
    ZGY_REFUSED_BRICKS = 8,      /* all levels together have more than 16,384 bricks */
    ZGY_REFUSED_TEXT_LENGTH = 9, /* the text section is not from 5 to 65,536 bytes long */
    ZGY_REFUSED_HEADERS = 10,    /* the file ends before its headers do */
    ZGY_REFUSED_TEXT = 11,       /* the text section is not exactly five strings, each ended by a zero */
    ZGY_REFUSED_RANGE = 12,      /* a stored brick lies before the end of the headers, or ends after the file; entry says which */
    ZGY_REFUSED_OVERLAP = 13,    /* a stored brick shares bytes with one of a lower entry; entry says which */
    ZGY_REFUSED_RECORD = 14,     /* the record is none that opening gives, or is that of a file of another length */
    ZGY_REFUSED_LEVEL = 15,      /* there is no such level */
    ZGY_REFUSED_INDEX = 16,      /* a count of 0, a region outside the extent, or no such dimension, index or entry */
    ZGY_REFUSED_FILLER = 17,     /* the filler does not hold the brick's value again and again */
    ZGY_REFUSED_ROOM = 18,       /* a lent buffer is too short */
    ZGY_REFUSED_NOT_STORED = 19, /* a write touches a brick that is not stored; entry says which */
    ZGY_REFUSED_SUBTILES = 20    /* sides or item width that the version 1 brick order does not have */
};

/* ZgyKind.kind */
enum { ZGY_MISSING = 0, ZGY_CONSTANT = 1, ZGY_STORED = 2 };

/* ZgyView.source */
enum { ZGY_NOWHERE = 0, ZGY_IN_FILE = 1, ZGY_IN_FILLER = 2 };

/* zgy_make's fill */
enum { ZGY_FILL_CONSTANT = 0, ZGY_FILL_STORED = 1 };

/*
 * What a cube is made from. Arrays of three are inline, crossline, vertical. range, orig and inc are the bits of 32-bit floats,
 * hfactor and vfactor those of 64-bit floats. Ids are in canonical order.
 */
typedef struct ZgyDescription {
    uint32_t side[3];   /* brick sides: 4, 8, 16, 32 or 64 */
    uint8_t datatype;   /* 0 int8, 2 int16, 6 float32 */
    uint32_t range[2];  /* coding range: min, max */
    uint8_t dataid[16];
    uint8_t verid[16];
    uint8_t previd[16];
    uint8_t srctype;
    uint32_t orig[3];
    uint32_t inc[3];
    uint32_t size[3];   /* samples at level 0: 1 to 1,048,576 */
    uint8_t hdim;
    uint64_t hfactor;
    uint8_t vdim;
    uint64_t vfactor;
} ZgyDescription;

/* orig, inc and coding range as floats; the range of type 6 is 0, 0. */
typedef struct ZgyGrid {
    float orig[3];
    float inc[3];
    float min;
    float max;
} ZgyGrid;

/*
 * What opening says of a cube. The host keeps it and passes it, unchanged, with the cube's bytes.
 *
 * Level n has size / 2^n samples in each direction and size / (side x 2^n) bricks, both rounded up. The last level is the first
 * with one brick.
 *
 * Entries number the bricks of all levels, as the brick table has them. The highest level's single brick is entry 0, the levels
 * below it follow in turn, and level 0 comes last: the last brick of level 0 is entry bricks - 1. Inside a level inline runs
 * fastest and vertical slowest.
 */
typedef struct ZgyRecord {
    uint32_t version;
    ZgyDescription description;
    uint32_t text;      /* bytes of the text section, which starts at byte 346 */
    ZgyGrid grid;
    uint64_t header;    /* where the headers end */
    uint32_t levels;
    uint32_t bricks;    /* entries of the brick table, over all levels */
    uint32_t alphas;    /* entries of the alpha table */
    uint64_t length;    /* bytes of the file */
} ZgyRecord;

/* A box of samples of one level: where it starts and how many it has; inline, crossline, vertical. */
typedef struct ZgyRegion {
    uint32_t level;
    uint32_t start[3];
    uint32_t count[3];
} ZgyRegion;

typedef struct ZgyOpened {
    uint32_t number;
    uint32_t entry;
    ZgyRecord cube;     /* all zero where refused */
} ZgyOpened;

typedef struct ZgyKind {
    uint32_t number;
    uint32_t entry;
    uint32_t kind;      /* ZGY_MISSING, ZGY_CONSTANT or ZGY_STORED */
    double value;       /* of a constant brick: the storage value, unscaled; else 0 */
    uint64_t offset;    /* of a stored brick: where its bytes start in the file; else 0 */
} ZgyKind;

typedef struct ZgyView {
    uint32_t number;
    uint32_t entry;
    uint32_t source;    /* ZGY_IN_FILE or ZGY_IN_FILLER; ZGY_NOWHERE where refused */
    uint64_t offset;    /* from the start of that buffer */
    uint64_t length;    /* bytes of a brick */
} ZgyView;

typedef struct ZgyString {
    uint32_t number;
    uint32_t entry;
    uint32_t found;     /* 1 where there is such a string; 0 where there is none, or refused */
    uint64_t offset;    /* from the start of the file */
    uint64_t length;    /* bytes of the string, without the zero that ends it */
} ZgyString;

typedef struct ZgyDone {
    uint32_t number;
    uint32_t entry;
    uint64_t count;     /* bytes or doubles moved or made; 0 where refused */
} ZgyDone;

typedef struct ZgyPosition {
    uint32_t number;
    uint32_t entry;
    double value;
} ZgyPosition;

/*
 * Opens a cube: checks the headers, the text and the whole brick table.
 *   file    the bytes of the file, all of them
 * Answers the cube's record. Refusals: 1 to 13, in this order.
 */
ZgyOpened zgy_open(const uint8_t *file, size_t file_length);

/*
 * What the brick of an entry is.
 *   file, cube    the opened cube's bytes and its record
 *   entry         0 to cube.bricks - 1, numbered as ZgyRecord says
 * Answers its kind, with the value of a constant brick or the offset of a stored one.
 * Refusals: 14, 16, 12, in this order.
 */
ZgyKind zgy_brick_kind(const uint8_t *file, size_t file_length, ZgyRecord cube, uint32_t entry);

/*
 * Where the bytes of an entry's brick can be read without a copy.
 *   file, cube    the opened cube's bytes and its record
 *   filler        bytes to show for a brick that is not stored: at least one brick, its front being the constant's storage
 *                 bytes (zeros for a missing brick) again and again. Not looked at for a stored brick.
 *   entry         0 to cube.bricks - 1
 * Answers a buffer, an offset and a length: bytes offset to offset + length of the file, or of the filler.
 * Refusals: 14, 16, 12, 18, 17, in this order.
 */
ZgyView zgy_brick_view(const uint8_t *file, size_t file_length, const uint8_t *filler, size_t filler_length, ZgyRecord cube,
                       uint32_t entry);

/*
 * Reads the storage bytes of a region, vertical fastest and inline slowest. A missing brick reads as zeros.
 *   out           at least samples x item bytes (1, 2 or 4 for types 0, 2, 6)
 *   file, cube    the opened cube's bytes and its record
 *   region        inside the level's extent, each count at least 1
 * Answers the bytes read, which are at the front of out; the bytes of out after them stay.
 * Refusals: 14, 15, 16, 18, 12, in this order.
 */
ZgyDone zgy_read_raw(uint8_t *out, size_t out_length, const uint8_t *file, size_t file_length, ZgyRecord cube, ZgyRegion region);

/*
 * Reads the samples of a region as doubles: integers scaled to the coding range, floats widened. A missing brick reads as 0.
 *   out           at least as many doubles as the region has samples; out_length counts doubles
 * The other arguments, the order and the refusals are those of zgy_read_raw. Answers the number of doubles.
 */
ZgyDone zgy_read_float(double *out, size_t out_length, const uint8_t *file, size_t file_length, ZgyRecord cube, ZgyRegion region);

/*
 * Writes the storage bytes of a region into the cube, in the order of zgy_read_raw.
 *   file, cube    the opened cube's bytes and its record
 *   input         at least samples x item bytes; more are not looked at
 *   region        inside the level's extent, each count at least 1, and in stored bricks alone
 * Answers the bytes written. All other bytes of the file stay, and the record stays good for it.
 * Refusals: 14, 15, 16, 18, 12, 19, in this order.
 */
ZgyDone zgy_write(uint8_t *file, size_t file_length, const uint8_t *input, size_t input_length, ZgyRecord cube, ZgyRegion region);

/*
 * Where an index stands along a dimension at level 0: orig + index x inc.
 *   cube          the record of an opened cube
 *   dimension     0 inline, 1 crossline, 2 vertical
 *   index         0 to the size along it - 1
 * Refusals: 14, 16, in this order.
 */
ZgyPosition zgy_position(ZgyRecord cube, uint32_t dimension, uint32_t index);

/*
 * Where a string of the text section can be read without a copy.
 *   file, cube    the opened cube's bytes and its record
 *   n             which string: 0 to 4
 * Answers an offset and a length: bytes offset to offset + length of the file, followed there by a zero. Any other n is no
 * refusal: found, offset and length are 0, as there are five strings.
 * Refusals: 14, 11, in this order.
 */
ZgyString zgy_string(const uint8_t *file, size_t file_length, ZgyRecord cube, uint32_t n);

/*
 * Makes a cube of version 3 at the front of a buffer.
 *   out           at least as long as the file gets
 *   description   what the cube is
 *   text          the text section: five strings, each ended by a zero, 5 to 65,536 bytes together
 *   fill          ZGY_FILL_CONSTANT: every brick is the constant 0, and the file is the headers alone;
 *                 any other number: every brick is stored, and holds zeros
 * Answers the length of the file; the bytes of out after it stay. The file opens with zgy_open.
 * Refusals: 4 to 9, 11, 18, in this order.
 */
ZgyDone zgy_make(uint8_t *out, size_t out_length, ZgyDescription description, const uint8_t *text, size_t text_length,
                 uint32_t fill);

/*
 * Moves a brick from the version 1 order, of subtiles of 8 x 8 x side2, to the plain order, and back.
 *   out           at least one brick
 *   brick         at least one brick; more is not looked at
 *   side0..2      8, 16, 32 or 64 for the first two, 4, 8, 16, 32 or 64 for the third
 *   width         bytes of an item: 1, 2 or 4
 * Answers the bytes of the brick, which are at the front of out; the bytes of out after them stay.
 * Refusals: 20, 18, in this order.
 */
ZgyDone zgy_to_plain(uint8_t *out, size_t out_length, const uint8_t *brick, size_t brick_length, uint32_t side0, uint32_t side1,
                     uint32_t side2, uint32_t width);
ZgyDone zgy_to_subtiled(uint8_t *out, size_t out_length, const uint8_t *brick, size_t brick_length, uint32_t side0,
                        uint32_t side1, uint32_t side2, uint32_t width);

/* The sizes that the library was built with: a host whose compiler lays a struct out otherwise does not compile. */
#define ZGY_SIZE_IS(type, bytes) typedef char zgy_size_of_##type[(sizeof(type) == (bytes)) ? 1 : -1]
ZGY_SIZE_IS(ZgyDescription, 144);
ZGY_SIZE_IS(ZgyGrid, 32);
ZGY_SIZE_IS(ZgyRecord, 224);
ZGY_SIZE_IS(ZgyRegion, 28);
ZGY_SIZE_IS(ZgyOpened, 232);
ZGY_SIZE_IS(ZgyKind, 32);
ZGY_SIZE_IS(ZgyView, 32);
ZGY_SIZE_IS(ZgyString, 32);
ZGY_SIZE_IS(ZgyDone, 16);
ZGY_SIZE_IS(ZgyPosition, 16);
#undef ZGY_SIZE_IS

#ifdef __cplusplus
}
#endif

#endif
