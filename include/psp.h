/*
 * psp.h: reading Paint Shop Pro 3.0 files, by a library whose every function is proved.
 *
 * The library allocates nothing, keeps nothing between calls and stops for no input: each function tests its own arguments and gives one
 * answer for every input, however damaged or short. The numbers of its answers are document 01's, and stand below.
 *
 * A buffer is a pointer and its length in elements. Where the length is 0 the pointer may be null, as that of an empty vector is: nothing
 * is read or written through it. Buffers that a function writes must not overlap any other buffer of the call.
 */
#ifndef PSP_H
#define PSP_H

#include <stddef.h>
#include <stdint.h>

#if SIZE_MAX != UINT64_MAX
#error "the library is built for 64-bit machines"
#endif

#ifdef __cplusplus
extern "C" {
#endif

/* ---- Version ---- */

#define PSP_VERSION_MAJOR 0
#define PSP_VERSION_MINOR 9
#define PSP_VERSION_PATCH 0
#define PSP_VERSION (PSP_VERSION_MAJOR * 10000 + PSP_VERSION_MINOR * 100 + PSP_VERSION_PATCH)

/* Gives the version of the library that is linked, which is PSP_VERSION of the header that belongs to it. */
uint32_t psp_version(void);

/* ---- Answers ---- */

/* Every function: all is well. */
#define PSP_ACCEPTED 0

/* Listing, and everything that lists first. */
#define PSP_OVER_LIMIT 1       /* too long an input */
#define PSP_ENDS_TOO_SOON 2    /* ends too soon */
#define PSP_WRONG_SIGNATURE 3  /* another signature */
#define PSP_WRONG_VERSION 4    /* another version */
#define PSP_WRONG_MARK 5       /* another mark than a block's */
#define PSP_WRONG_LENGTH 6     /* a length that cannot be */
#define PSP_OUT_OF_PLACE 7     /* a known id where it may not stand */
#define PSP_WRONG_FIELD 8      /* a field outside its values */
#define PSP_NOT_EXPECTED 9     /* one too many, or no such channel here */
#define PSP_MISSING 10         /* a parent closes incomplete */
#define PSP_NOT_READABLE 11    /* a compression that is not read */
#define PSP_TABLE_FULL 12      /* table full */

/* Reading a plane. */
#define PSP_PLANE_NO_ROOM 20       /* destination shorter than the plane */
#define PSP_PLANE_COUNT_128 21     /* a packet's count is 128 */
#define PSP_PLANE_DATA_MISSING 22  /* packet data missing, or the plane not full at the stream's end */
#define PSP_PLANE_TOO_MUCH 23      /* more than the plane has left */
#define PSP_PLANE_UNKNOWN_CODE 24  /* code not 0 or 1 */
#define PSP_PLANE_RAW_LENGTH 25    /* a raw channel of another length than the plane */
#define PSP_PLANE_OVER_LIMIT 26    /* plane length over the limit */
#define PSP_PLANE_OUTSIDE 27       /* a stored part outside the input */

/* Packing a plane. */
#define PSP_PACK_NO_ROOM 30     /* destination shorter than the packed form */
#define PSP_PACK_OVER_LIMIT 31  /* plane over the limit */

/* Placing a plane on a canvas. */
#define PSP_CANVAS_WRONG 40  /* no such canvas: its sides, or its length */
#define PSP_RECT_WRONG 41    /* no such rectangle */
#define PSP_PLANE_WRONG 42   /* a row or a plane that is not the rectangle's */

/* Views, and facts at a place. */
#define PSP_NO_PALETTE 43    /* depth 24 */
#define PSP_NO_RAMP 44       /* a ramp of another length than 1,024 would have to stand in */
#define PSP_NO_LAYER 45      /* k is past the last layer, or no layer stands at the place */
#define PSP_NO_SELECTION 46  /* no selection, or none at the place */
#define PSP_NO_ALPHA 47      /* k is past the last alpha channel, or none stands at the place */

/* Saving a table, and reading it back. */
#define PSP_SAVED_LENGTH 70   /* a length that is not the file's, or that four bytes cannot say */
#define PSP_SAVED_VERSION 71  /* another version of a saved table */
#define PSP_SAVED_COUNT 72    /* a count that is not the length's */
#define PSP_SAVED_NO_ROOM 73  /* destination too short */
#define PSP_SAVED_SIDES 74    /* a version that is not that of the sides */

/* ---- Limits ---- */

#define PSP_INPUT_LIMIT 1073741824  /* bytes of an input */
#define PSP_PLANE_LIMIT 900000000   /* bytes of a plane */
#define PSP_SIDE_LIMIT 30000        /* sides of an image, of a saved rectangle and of a canvas */
#define PSP_LAYER_LIMIT 64          /* layers of an image */
#define PSP_ENTRY_NUMBERS 14        /* numbers of an entry in a table */
#define PSP_SAVED_HEAD 9            /* bytes of a saved table in front of its entries */
#define PSP_SAVED_ENTRY 56          /* bytes of an entry there */
#define PSP_SAVED_SIDE 4096         /* the greatest width or height in a saved table of version 1 */

/* ---- Listing ---- */

/* An entry of the table: a block of the file. What a kind does not fill is 0. An entry of level 1 or 2 lies in the last one before it that
 * is one level up: a channel in a layer, in the selection or in an alpha channel, which its layer number alone does not tell. */
typedef struct psp_entry {
  uint32_t id;       /* 0 image, 2 palette, 3 bank, 4 layer, 5 channel, 6 selection, 7 alpha bank, 8 alpha channel; any id when skipped */
  uint32_t skipped;  /* 0 or 1 */
  uint32_t level;    /* 0 main; 1 in the bank, the selection or the alpha bank; 2 in a layer or an alpha channel */
  uint32_t place;    /* where the block's header starts */
  uint32_t owned;    /* bytes owned; all of them tile an accepted input behind its 36-byte header */
  uint32_t layer;    /* layers count from 0 in file order, and alpha channels likewise; a channel has the number of what it lies in */
  uint32_t bitmap;   /* in a layer 0 image, 1 transparency mask, 2 user mask; in the selection 3, in an alpha channel 4 */
  uint32_t channel;  /* 0 composite, 1 red, 2 green, 3 blue */
  uint32_t start;    /* content start */
  uint32_t stored;   /* stored length */
  uint32_t width;    /* of the plane, in pixels */
  uint32_t height;   /* of the plane, in rows */
  uint32_t plane;    /* plane length in bytes: row times height */
  uint32_t row;      /* bytes of a row: padded to 4, or the width itself */
} psp_entry;

/* The place of 8 is that of the field: its first byte, and of a rectangle its first corner. Of several wrong fields in a chunk it is the
 * earliest, but a channel's types come before its plane length. What is wrong between two fields is told at the later one. */
typedef struct psp_listed {
  uint32_t number;  /* 0 to 12 */
  size_t place;     /* where; for 0 the input length */
  size_t count;     /* entries listed, also when refused */
} psp_listed;

/* Lists an input into a table of 32-bit numbers, fourteen an entry (0 to 12): count entries stand in front, refused or not, and nothing
 * behind them changes. Numbers that make no whole entry are no room. */
psp_listed psp_list(const uint8_t *input, size_t length, uint32_t *table, size_t numbers);

/* Gives the answer (0 to 12) of a listing in a room of so many entries, and stores nothing: with room SIZE_MAX the count is what a table
 * needs. */
psp_listed psp_count(const uint8_t *input, size_t length, size_t room);

/* Lists an input into a table and into records alike, in the smaller room of the two (0 to 12): the first count entries stand in both,
 * and both rests are untouched. */
psp_listed psp_list_records(const uint8_t *input, size_t length, uint32_t *table, size_t numbers, psp_entry *records, size_t room);

/* An entry that was asked for, or that there is none. */
typedef struct psp_asked {
  uint32_t found;     /* 1: entry is the one asked for; 0: there is no such entry in this room */
  psp_listed listed;  /* where there is none the final answer of the listing in this room; zeros where it was found */
  psp_entry entry;    /* zeros where there is none */
} psp_asked;

/* Gives entry k of a listing in a room of so many entries, from 0, and where there is none the listing's answer (0 to 12): what psp_list
 * would store as that entry, and what psp_count answers. It walks the input anew each time, up to the entry and not behind it, and nothing
 * is stored. With room SIZE_MAX every entry of the input is there. */
psp_asked psp_entry_at(const uint8_t *input, size_t length, size_t room, size_t k);

/* ---- Planes ---- */

typedef struct psp_plane {
  uint32_t number;  /* 0, or 20 to 27 */
  size_t place;     /* inside the stored channel; for 0 its length */
  size_t bytes;     /* bytes written: the plane length for 0, else 0 */
} psp_plane;

/* Reads a stored channel of an input, the part from start for stored bytes, into the first plane bytes of dest; code is the image's
 * compression, 0 raw or 1 run lengths (0, 20 to 27). The rest of dest is untouched, and all of it when refused. */
psp_plane psp_read_plane(const uint8_t *input, size_t length, size_t start, size_t stored, size_t plane, uint32_t code, uint8_t *dest,
                         size_t room);

/* Reads a stream of run-length packets into the first plane bytes of dest (0, 20 to 23). The rest of dest is untouched, and all of it
 * when refused. */
psp_plane psp_unpack(const uint8_t *stream, size_t length, uint8_t *dest, size_t room, size_t plane);

typedef struct psp_packed {
  uint32_t number;  /* 0, 30 or 31 */
  size_t length;    /* bytes of the packed form; 0 when refused */
} psp_packed;

/* Packs a plane into dest as run-length packets, at most length + (length + 126) / 127 bytes (0, 30, 31). With that much room it does not
 * measure first, and is nearly twice as fast. What follows the packed form is untouched, and all of dest when refused. */
psp_packed psp_pack(const uint8_t *plane, size_t length, uint8_t *dest, size_t room);

/* ---- Rectangles and canvas ---- */

/* Signed corners, the lower right one exclusive. */
typedef struct psp_rect {
  int32_t left;
  int32_t top;
  int32_t right;
  int32_t bottom;
} psp_rect;

/* Places an 8-bit plane of rectangle r on a canvas of one byte a pixel (0, 40, 41, 42): each canvas pixel inside r takes its byte,
 * and of padding or of pixels off the canvas nothing is taken. A row has row bytes, as the entry says: r's width, or that padded to 4. The
 * other pixels are untouched, and the whole canvas when refused. A plane that is placed again changes nothing. */
uint32_t psp_place(uint32_t width, uint32_t height, uint8_t *canvas, size_t pixels, psp_rect r, const uint8_t *plane, size_t length,
                   uint32_t row);

/* Gives the pixels that two rectangles share, and 0,0,0,0 where there are none. Several may be clipped in any order and grouping: the result
 * is one. */
psp_rect psp_intersect(psp_rect a, psp_rect b);

/* ---- Saved tables ---- */

/* A saved table is a file, all of it big-endian: four bytes for the length of all that follows, one for the version, four for the count of
 * entries, and four for each number of each entry, in the table's order. The version is 2 where any entry, whatever its id, has a width or
 * height over PSP_SAVED_SIDE, and otherwise 1, as in the files that earlier versions of the library wrote; the layout is the same. Besides
 * that its entries are not judged. */
typedef struct psp_saved {
  uint32_t number;  /* 0, 70 or 73 */
  size_t length;    /* bytes of the file; 0 when refused */
} psp_saved;

/* Writes the whole entries of a table into dest as a file, PSP_SAVED_HEAD bytes and PSP_SAVED_ENTRY an entry, of the version that their
 * sides give it (0, 70, 73). Numbers that make no whole entry are not written. What follows the file is untouched, and all of dest when
 * refused. */
psp_saved psp_write_table(const uint32_t *table, size_t numbers, uint8_t *dest, size_t room);

typedef struct psp_restored {
  uint32_t number;  /* 0, or 70 to 74 */
  size_t count;     /* entries; 0 when refused */
} psp_restored;

/* Reads a saved table of version 1 or 2 back into a table of 32-bit numbers, fourteen an entry (0, 70 to 74); what psp_write_table has
 * written gives the same entries. It is judged in the order 70, 71, 72, 74, 73: version 1 with a side over PSP_SAVED_SIDE is 74, and so is
 * version 2 without one, also where it has no entries; that comes after 72 and before 73. Numbers that make no whole entry are no room. What
 * follows the entries is untouched, and all of the table when refused. */
psp_restored psp_read_table(const uint8_t *file, size_t length, uint32_t *table, size_t numbers);

/* ---- Views of an accepted input ---- */

/* A part of a slice that the caller lent: which slice, 0 the input or 1 the ramp, where it starts and how long it is. */
typedef struct psp_part {
  uint32_t number;  /* 0 to 12, 43 to 45, 47 */
  uint32_t which;   /* 0 input, 1 ramp; 0 when refused */
  size_t start;     /* 0 when refused */
  size_t length;    /* 0 when refused */
} psp_part;

/* Shows the palette's entries, four bytes each, or the grey ramp of an image without one; the input is listed first in a room of so many
 * entries (0 to 12, 43, 44). Nothing is written. */
psp_part psp_palette(const uint8_t *input, size_t length, size_t room, const uint8_t *ramp, size_t ramp_length);

/* Shows the name of layer k, its bytes before the first zero or all 256; the input is listed first in a room of so many entries (0 to 12,
 * 45). Nothing is written. */
psp_part psp_name(const uint8_t *input, size_t length, size_t room, uint32_t k);

/* Shows the name of alpha channel k, likewise (0 to 12, 47). Nothing is written. */
psp_part psp_alpha_name(const uint8_t *input, size_t length, size_t room, uint32_t k);

/* A value with its metric: 0 unknown, 1 dots an inch, 2 dots a centimetre. */
typedef struct psp_resolution {
  double value;
  uint8_t metric;
} psp_resolution;

/* The image attributes chunk. */
typedef struct psp_image_chunk {
  int32_t width;
  int32_t height;
  uint64_t bits;  /* the 64 bits of the resolution's value, also where it is no number */
  psp_resolution resolution;
  uint16_t compression;  /* 0 raw, 1 run lengths */
  uint16_t depth;        /* 1, 4, 8 or 24 */
  uint16_t planes;
  uint32_t colours;
  uint8_t grey;
  uint32_t total;
  int32_t active;
  uint16_t layers;
} psp_image_chunk;

typedef struct psp_image_facts {
  uint32_t number;  /* 0 to 12 */
  psp_image_chunk image;
} psp_image_facts;

/* Gives every field of the image chunk; the input is listed first in a room of so many entries (0 to 12). A refusal gives zeros. Nothing
 * is written. */
psp_image_facts psp_read_image_facts(const uint8_t *input, size_t length, size_t room);

/* A border rectangle, and the saved rectangle inside it. */
typedef struct psp_area {
  psp_rect border;
  psp_rect saved;
} psp_area;

/* The layer information chunk; a flag is 0 or 1. */
typedef struct psp_layer_chunk {
  uint8_t name[256];
  uint8_t kind;
  psp_area image;
  uint8_t opacity;
  uint8_t blending;
  uint8_t visible;
  uint8_t transparency_protected;
  uint8_t group;
  psp_area mask;
  uint8_t linked;
  uint8_t disabled;
  uint8_t inverted;
  uint16_t blends;
  uint8_t ranges[40];
  uint16_t bitmaps;
  uint16_t channels;
} psp_layer_chunk;

typedef struct psp_layer_facts {
  uint32_t number;  /* 0 to 12, 45 */
  psp_layer_chunk layer;
} psp_layer_facts;

/* Gives every field of layer k's chunk; the input is listed first in a room of so many entries (0 to 12, 45). A refusal gives zeros.
 * Nothing is written. */
psp_layer_facts psp_read_layer_facts(const uint8_t *input, size_t length, size_t room, uint32_t k);

/* The selection information chunk. */
typedef struct psp_selection_chunk {
  psp_area area;
  uint16_t bitmaps;   /* 1 */
  uint16_t channels;  /* 1 */
} psp_selection_chunk;

typedef struct psp_selection_facts {
  uint32_t number;  /* 0 to 12, 46 */
  psp_selection_chunk selection;
} psp_selection_facts;

/* Gives every field of the selection's chunk; the input is listed first in a room of so many entries (0 to 12, 46). A refusal gives zeros.
 * Nothing is written. */
psp_selection_facts psp_read_selection_facts(const uint8_t *input, size_t length, size_t room);

/* The alpha channel information chunk. */
typedef struct psp_alpha_chunk {
  uint8_t name[256];
  psp_area area;
  uint16_t bitmaps;   /* 1 */
  uint16_t channels;  /* 1 */
} psp_alpha_chunk;

typedef struct psp_alpha_facts {
  uint32_t number;  /* 0 to 12, 47 */
  psp_alpha_chunk alpha;
} psp_alpha_facts;

/* Gives every field of the chunk of alpha channel k; the input is listed first in a room of so many entries (0 to 12, 47). A refusal gives
 * zeros. Nothing is written. */
psp_alpha_facts psp_read_alpha_facts(const uint8_t *input, size_t length, size_t room, uint32_t k);

/* ---- Facts at a place that a listing gave ---- */

/* These five read the block whose header starts at a place of the input, the place of an entry. Nothing is listed again: each costs what
 * reading one chunk costs, however long the file is. The listing that gave the place may have been refused. At the place of a layer, a
 * selection or an alpha channel that is listed the answer is 0 and that block's chunk. Of an accepted input it is what the view gives for
 * the entry's layer number.
 *
 * A refusal means that no such block stands there: header and chunk do not both lie inside the input, the mark is wrong, the id is another,
 * or the header's lengths are not those of the kind. Whether such a block may stand there is not asked, and its fields are not judged: the
 * listing does that. A caller that makes places up gets what stands there. */

/* Gives every field of the chunk of the layer at a place (0, 45). A refusal gives zeros. Nothing is written. */
psp_layer_facts psp_layer_at(const uint8_t *input, size_t length, size_t place);

/* Shows the name of that layer, its bytes before the first zero or all 256 (0, 45). Nothing is written. */
psp_part psp_name_at(const uint8_t *input, size_t length, size_t place);

/* Gives every field of the chunk of the selection at a place (0, 46). A refusal gives zeros. Nothing is written. */
psp_selection_facts psp_selection_at(const uint8_t *input, size_t length, size_t place);

/* Gives every field of the chunk of the alpha channel at a place (0, 47). A refusal gives zeros. Nothing is written. */
psp_alpha_facts psp_alpha_at(const uint8_t *input, size_t length, size_t place);

/* Shows the name of that alpha channel, likewise (0, 47). Nothing is written. */
psp_part psp_alpha_name_at(const uint8_t *input, size_t length, size_t place);

/* ---- Resolutions ---- */

typedef struct psp_dots {
  uint32_t known;  /* 0 or 1 */
  double value;    /* 0 where there are none */
} psp_dots;

/* Gives the dots per centimetre of a resolution, where there are any. */
psp_dots psp_dots_per_centimetre(double value, uint8_t metric);

#ifdef __cplusplus
}
#endif

#endif
