/* The header against the archive, in C and in C++: header FILE, document 01's file of 521 bytes. Their versions agree, their entries too,
 * also one by one, a wrong field has its own place, a selection and alpha channels have their fields, also at their places, a table is
 * saved and read back, and every function takes a null pointer where the length is 0: its answer is that of a buffer of length 0. */
#include <psp.h>
#include <stdio.h>
#include <string.h>

#ifdef __cplusplus
#include <vector>
#endif

static int failed = 0;

static void hold(int holds, const char *what) {
  if (holds) return;
  failed = 1;
  printf("FAILED %s\n", what);
}

static int same_listed(psp_listed a, psp_listed b) { return a.number == b.number && a.place == b.place && a.count == b.count; }

static int is_listed(psp_listed a, uint32_t number, size_t place, size_t count) {
  return a.number == number && a.place == place && a.count == count;
}

static int is_plane(psp_plane a, uint32_t number, size_t place, size_t bytes) {
  return a.number == number && a.place == place && a.bytes == bytes;
}

static int is_part(psp_part a, uint32_t number) { return a.number == number && a.which == 0 && a.start == 0 && a.length == 0; }

/* Each buffer null in its turn, the others as they come. */
static void listings(const uint8_t *file, size_t length) {
  enum { ROOM = 2, NUMBERS = ROOM * PSP_ENTRY_NUMBERS };
  uint32_t table[NUMBERS];
  psp_entry records[ROOM];
  hold(is_listed(psp_list(NULL, 0, table, NUMBERS), PSP_ENDS_TOO_SOON, 0, 0), "psp_list: no input");
  hold(is_listed(psp_list(file, length, NULL, 0), PSP_TABLE_FULL, 36, 0), "psp_list: no table");
  hold(is_listed(psp_list(NULL, 0, NULL, 0), PSP_ENDS_TOO_SOON, 0, 0), "psp_list: neither");
  hold(same_listed(psp_list(file, length, NULL, 0), psp_list(file, length, table, 0)), "psp_list: null as a table of length 0");
  hold(is_listed(psp_count(NULL, 0, SIZE_MAX), PSP_ENDS_TOO_SOON, 0, 0), "psp_count: no input");
  hold(is_listed(psp_list_records(NULL, 0, table, NUMBERS, records, ROOM), PSP_ENDS_TOO_SOON, 0, 0), "psp_list_records: no input");
  hold(is_listed(psp_list_records(file, length, NULL, 0, records, ROOM), PSP_TABLE_FULL, 36, 0), "psp_list_records: no table");
  hold(is_listed(psp_list_records(file, length, table, NUMBERS, NULL, 0), PSP_TABLE_FULL, 36, 0), "psp_list_records: no records");
  hold(is_listed(psp_list_records(NULL, 0, NULL, 0, NULL, 0), PSP_ENDS_TOO_SOON, 0, 0), "psp_list_records: none");
}

/* A record has the numbers of the table, in its order. */
static void entries(const uint8_t *file, size_t length) {
  enum { ROOM = 4, NUMBERS = ROOM * PSP_ENTRY_NUMBERS };
  uint32_t table[NUMBERS];
  psp_entry records[ROOM];
  hold(is_listed(psp_list_records(file, length, table, NUMBERS, records, ROOM), PSP_ACCEPTED, length, ROOM), "psp_entry: the listing");
  hold(sizeof records == sizeof table && memcmp(records, table, sizeof table) == 0, "psp_entry: the numbers of the table");
  hold(records[2].row == 0 && records[3].plane == 4 && records[3].row == 4, "psp_entry: plane length and row");
}

static int is_asked(psp_asked a, uint32_t found, psp_entry entry) {
  return a.found == found && memcmp(&a.entry, &entry, sizeof entry) == 0;
}

/* Each entry by itself is the record, with zeros beside it; where there is none the answer is the listing's. */
static void asked(const uint8_t *file, size_t length) {
  enum { ROOM = 4, NUMBERS = ROOM * PSP_ENTRY_NUMBERS };
  static psp_entry none;
  uint32_t table[NUMBERS];
  psp_entry records[ROOM];
  psp_asked past;
  size_t k;
  hold(psp_list_records(file, length, table, NUMBERS, records, ROOM).count == ROOM, "psp_entry_at: the listing");
  for (k = 0; k < ROOM; k++) {
    hold(is_asked(psp_entry_at(file, length, SIZE_MAX, k), 1, records[k]), "psp_entry_at: an entry");
    hold(is_listed(psp_entry_at(file, length, ROOM, k).listed, 0, 0, 0), "psp_entry_at: zeros beside an entry");
    past = psp_entry_at(file, length, k, k);
    hold(is_asked(past, 0, none) && is_listed(past.listed, PSP_TABLE_FULL, records[k].place, k), "psp_entry_at: no room");
  }
  past = psp_entry_at(file, length, SIZE_MAX, ROOM);
  hold(is_asked(past, 0, none) && is_listed(past.listed, PSP_ACCEPTED, length, ROOM), "psp_entry_at: behind the last entry");
  hold(psp_entry_at(file, length, SIZE_MAX, SIZE_MAX).found == 0, "psp_entry_at: the greatest number");
  past = psp_entry_at(NULL, 0, SIZE_MAX, 0);
  hold(is_asked(past, 0, none) && is_listed(past.listed, PSP_ENDS_TOO_SOON, 0, 0), "psp_entry_at: no input");
}

/* The place of 8 is that of the field: here the layer count, and the first corner of the saved image rectangle. */
static void wrong_fields(const uint8_t *file, size_t length) {
  uint8_t wrong[521];
  memcpy(wrong, file, length);
  wrong[397] = 2;
  hold(is_listed(psp_count(wrong, length, SIZE_MAX), PSP_WRONG_FIELD, 389, 2), "psp_listed: a wrong rectangle");
  wrong[86] = 0;
  hold(is_listed(psp_count(wrong, length, SIZE_MAX), PSP_WRONG_FIELD, 86, 0), "psp_listed: a wrong field");
}

static void planes(const uint8_t *file, size_t length) {
  uint8_t dest[4];
  psp_packed packed;
  hold(is_plane(psp_read_plane(NULL, 0, 0, 0, 0, 0, dest, 4), PSP_ACCEPTED, 0, 0), "psp_read_plane: no input, raw");
  hold(is_plane(psp_read_plane(NULL, 0, 0, 0, 0, 1, dest, 4), PSP_ACCEPTED, 0, 0), "psp_read_plane: no input, packets");
  hold(is_plane(psp_read_plane(NULL, 0, 0, 0, 4, 1, dest, 4), PSP_PLANE_DATA_MISSING, 0, 0), "psp_read_plane: no input for a plane");
  hold(is_plane(psp_read_plane(file, length, length, 0, 0, 0, NULL, 0), PSP_ACCEPTED, 0, 0), "psp_read_plane: no destination, raw");
  hold(is_plane(psp_read_plane(file, length, length, 0, 0, 1, NULL, 0), PSP_ACCEPTED, 0, 0), "psp_read_plane: no destination, packets");
  hold(is_plane(psp_read_plane(file, length, 517, 4, 4, 0, NULL, 0), PSP_PLANE_NO_ROOM, 0, 0), "psp_read_plane: no destination for a plane");
  hold(is_plane(psp_read_plane(NULL, 0, 0, 0, 0, 0, NULL, 0), PSP_ACCEPTED, 0, 0), "psp_read_plane: neither, raw");
  hold(is_plane(psp_read_plane(NULL, 0, 0, 0, 0, 1, NULL, 0), PSP_ACCEPTED, 0, 0), "psp_read_plane: neither, packets");
  hold(is_plane(psp_unpack(NULL, 0, dest, 4, 0), PSP_ACCEPTED, 0, 0), "psp_unpack: no stream");
  hold(is_plane(psp_unpack(NULL, 0, dest, 4, 4), PSP_PLANE_DATA_MISSING, 0, 0), "psp_unpack: no stream for a plane");
  hold(is_plane(psp_unpack(file, 2, NULL, 0, 0), PSP_PLANE_TOO_MUCH, 0, 0), "psp_unpack: no destination");
  hold(is_plane(psp_unpack(NULL, 0, NULL, 0, 0), PSP_ACCEPTED, 0, 0), "psp_unpack: neither");
  packed = psp_pack(NULL, 0, dest, 4);
  hold(packed.number == PSP_ACCEPTED && packed.length == 0, "psp_pack: no plane");
  packed = psp_pack(file, 2, NULL, 0);
  hold(packed.number == PSP_PACK_NO_ROOM && packed.length == 0, "psp_pack: no destination");
  packed = psp_pack(NULL, 0, NULL, 0);
  hold(packed.number == PSP_ACCEPTED && packed.length == 0, "psp_pack: neither");
}

static void canvases(void) {
  const psp_rect empty = {0, 0, 0, 0};
  const psp_rect square = {0, 0, 1, 1};
  const uint8_t plane[4] = {9, 0, 0, 0};
  uint8_t canvas[1] = {7};
  hold(psp_place(1, 1, NULL, 0, square, plane, 4, 4) == PSP_CANVAS_WRONG, "psp_place: no canvas");
  hold(psp_place(1, 1, canvas, 1, empty, NULL, 0, 0) == PSP_ACCEPTED, "psp_place: no plane");
  hold(psp_place(1, 1, canvas, 1, empty, NULL, 0, 4) == PSP_PLANE_WRONG, "psp_place: a row of no plane");
  hold(psp_place(1, 1, canvas, 1, square, NULL, 0, 4) == PSP_PLANE_WRONG, "psp_place: no plane for a rectangle");
  hold(psp_place(0, 0, NULL, 0, empty, NULL, 0, 0) == PSP_CANVAS_WRONG, "psp_place: neither");
  hold(canvas[0] == 7, "psp_place: the canvas is untouched");
  hold(psp_place(1, 1, canvas, 1, square, plane, 4, 4) == PSP_ACCEPTED && canvas[0] == 9, "psp_place: a padded row");
  hold(psp_place(1, 1, canvas, 1, square, plane + 1, 1, 1) == PSP_ACCEPTED && canvas[0] == 0, "psp_place: a row without padding");
}

static int is_saved(psp_saved a, uint32_t number, size_t length) { return a.number == number && a.length == length; }

static int is_restored(psp_restored a, uint32_t number, size_t count) { return a.number == number && a.count == count; }

/* The saved table of no entries is its head alone. */
static void saved_tables(const uint8_t *file, size_t length) {
  enum { ROOM = 4, NUMBERS = ROOM * PSP_ENTRY_NUMBERS, BYTES = PSP_SAVED_HEAD + ROOM * PSP_SAVED_ENTRY };
  const uint8_t none[PSP_SAVED_HEAD] = {0, 0, 0, 5, 1, 0, 0, 0, 0};
  uint32_t table[NUMBERS], again[NUMBERS];
  uint8_t saved[BYTES];
  hold(is_saved(psp_write_table(NULL, 0, saved, BYTES), PSP_ACCEPTED, PSP_SAVED_HEAD), "psp_write_table: no table");
  hold(memcmp(saved, none, sizeof none) == 0, "psp_write_table: the file of no table");
  hold(is_saved(psp_write_table(table, 0, NULL, 0), PSP_SAVED_NO_ROOM, 0), "psp_write_table: no destination");
  hold(is_saved(psp_write_table(NULL, 0, NULL, 0), PSP_SAVED_NO_ROOM, 0), "psp_write_table: neither");
  hold(is_restored(psp_read_table(NULL, 0, table, NUMBERS), PSP_SAVED_LENGTH, 0), "psp_read_table: no file");
  hold(is_restored(psp_read_table(none, sizeof none, NULL, 0), PSP_ACCEPTED, 0), "psp_read_table: no table");
  hold(is_restored(psp_read_table(NULL, 0, NULL, 0), PSP_SAVED_LENGTH, 0), "psp_read_table: neither");
  hold(is_listed(psp_list(file, length, table, NUMBERS), PSP_ACCEPTED, length, ROOM), "psp_write_table: the listing");
  hold(is_saved(psp_write_table(table, NUMBERS, saved, BYTES), PSP_ACCEPTED, BYTES), "psp_write_table: a table");
  hold(saved[3] == BYTES - 4 && saved[4] == 1 && saved[8] == ROOM && saved[PSP_SAVED_HEAD + 15] == 36, "psp_write_table: the file");
  hold(is_restored(psp_read_table(saved, BYTES, again, NUMBERS), PSP_ACCEPTED, ROOM), "psp_read_table: a table");
  hold(memcmp(again, table, sizeof table) == 0, "psp_read_table: the same numbers");
  hold(is_restored(psp_read_table(saved, BYTES, NULL, 0), PSP_SAVED_NO_ROOM, 0), "psp_read_table: no room");
  table[10] = PSP_SAVED_SIDE + 1;
  hold(is_saved(psp_write_table(table, NUMBERS, saved, BYTES), PSP_ACCEPTED, BYTES) && saved[4] == 2, "psp_write_table: a large side");
  hold(is_restored(psp_read_table(saved, BYTES, again, NUMBERS), PSP_ACCEPTED, ROOM), "psp_read_table: a large side");
  saved[4] = 1;
  hold(is_restored(psp_read_table(saved, BYTES, NULL, 0), PSP_SAVED_SIDES, 0), "psp_read_table: a version that its sides have not");
  saved[8]++;
  hold(is_restored(psp_read_table(saved, BYTES, again, NUMBERS), PSP_SAVED_COUNT, 0), "psp_read_table: another count");
  saved[4] = 3;
  hold(is_restored(psp_read_table(saved, BYTES, again, NUMBERS), PSP_SAVED_VERSION, 0), "psp_read_table: another version");
}

static void views(const uint8_t *file, size_t length) {
  static const uint8_t ramp[1024] = {0};
  psp_image_facts image = psp_read_image_facts(NULL, 0, SIZE_MAX);
  psp_layer_facts layer = psp_read_layer_facts(NULL, 0, SIZE_MAX, 0);
  psp_selection_facts selection = psp_read_selection_facts(NULL, 0, SIZE_MAX);
  psp_alpha_facts alpha = psp_read_alpha_facts(NULL, 0, SIZE_MAX, 0);
  hold(image.number == PSP_ENDS_TOO_SOON && image.image.width == 0, "psp_read_image_facts: no input");
  hold(layer.number == PSP_ENDS_TOO_SOON && layer.layer.name[0] == 0, "psp_read_layer_facts: no input");
  hold(selection.number == PSP_ENDS_TOO_SOON && selection.selection.bitmaps == 0, "psp_read_selection_facts: no input");
  hold(alpha.number == PSP_ENDS_TOO_SOON && alpha.alpha.name[0] == 0, "psp_read_alpha_facts: no input");
  hold(is_part(psp_palette(NULL, 0, SIZE_MAX, ramp, 1024), PSP_ENDS_TOO_SOON), "psp_palette: no input");
  hold(is_part(psp_palette(file, length, SIZE_MAX, NULL, 0), PSP_NO_RAMP), "psp_palette: no ramp");
  hold(is_part(psp_palette(NULL, 0, SIZE_MAX, NULL, 0), PSP_ENDS_TOO_SOON), "psp_palette: neither");
  hold(is_part(psp_name(NULL, 0, SIZE_MAX, 0), PSP_ENDS_TOO_SOON), "psp_name: no input");
  hold(is_part(psp_alpha_name(NULL, 0, SIZE_MAX, 0), PSP_ENDS_TOO_SOON), "psp_alpha_name: no input");
}

/* Writes a block's header at a place, and gives the place behind it. */
static size_t block(uint8_t *file, size_t at, uint8_t id, uint32_t initial, uint32_t total) {
  uint8_t header[14] = {'~', 'B', 'K', 0, id};
  header[6] = (uint8_t)initial;
  header[7] = (uint8_t)(initial >> 8);
  header[10] = (uint8_t)total;
  header[11] = (uint8_t)(total >> 8);
  memcpy(file + at, header, sizeof header);
  return at + sizeof header;
}

/* Likewise rectangles of one pixel, counts and a channel: a selection's, and an alpha channel's behind its name. */
static size_t area(uint8_t *file, size_t at, uint8_t bitmap) {
  const uint8_t corners[16] = {0, 0, 0, 0, 0, 0, 0, 0, 1, 0, 0, 0, 1, 0, 0, 0};
  const uint8_t counts[4] = {1, 0, 1, 0};
  const uint8_t channel[13] = {1, 0, 0, 0, 1, 0, 0, 0, bitmap, 0, 0, 0, 9};
  memcpy(file + at, corners, sizeof corners);
  memcpy(file + at + 16, corners, sizeof corners);
  memcpy(file + at + 32, counts, sizeof counts);
  at = block(file, at + 36, 5, 12, 13);
  memcpy(file + at, channel, sizeof channel);
  return at + sizeof channel;
}

/* At the place of each entry stand the fields of its kind, and nothing of another. */
static void places(const uint8_t *file, size_t length) {
  enum { ROOM = 11, NUMBERS = ROOM * PSP_ENTRY_NUMBERS };
  uint32_t table[NUMBERS];
  psp_entry records[ROOM];
  psp_layer_facts layer;
  psp_alpha_facts alpha;
  psp_part name;
  size_t k;
  hold(psp_list_records(file, length, table, NUMBERS, records, ROOM).count == ROOM, "psp_layer_at: the listing");
  for (k = 0; k < ROOM; k++) {
    uint32_t id = records[k].id;
    size_t place = records[k].place;
    hold(psp_layer_at(file, length, place).number == (id == 4 ? PSP_ACCEPTED : PSP_NO_LAYER), "psp_layer_at: an entry");
    hold(psp_selection_at(file, length, place).number == (id == 6 ? PSP_ACCEPTED : PSP_NO_SELECTION), "psp_selection_at: an entry");
    hold(psp_alpha_at(file, length, place).number == (id == 8 ? PSP_ACCEPTED : PSP_NO_ALPHA), "psp_alpha_at: an entry");
    hold(id == 4 || is_part(psp_name_at(file, length, place), PSP_NO_LAYER), "psp_name_at: an entry");
    hold(id == 8 || is_part(psp_alpha_name_at(file, length, place), PSP_NO_ALPHA), "psp_alpha_name_at: an entry");
  }
  layer = psp_layer_at(file, length, records[2].place);
  hold(layer.layer.name[0] == 'l' && layer.layer.image.saved.right == 1 && layer.layer.channels == 1, "psp_layer_at: the fields");
  name = psp_name_at(file, length, records[2].place);
  hold(name.which == 0 && name.length == 1 && file[name.start] == 'l', "psp_name_at: the name");
  hold(psp_selection_at(file, length, records[4].place).selection.area.saved.right == 1, "psp_selection_at: the fields");
  alpha = psp_alpha_at(file, length, records[9].place);
  hold(alpha.alpha.name[0] == 'b' && alpha.alpha.area.border.bottom == 1 && alpha.alpha.channels == 1, "psp_alpha_at: the fields");
  name = psp_alpha_name_at(file, length, records[9].place);
  hold(name.which == 0 && name.length == 1 && file[name.start] == 'b', "psp_alpha_name_at: the name");
  hold(psp_layer_at(file, length, SIZE_MAX).number == PSP_NO_LAYER, "psp_layer_at: the greatest place");
  hold(psp_layer_at(NULL, 0, 0).number == PSP_NO_LAYER && is_part(psp_name_at(NULL, 0, 0), PSP_NO_LAYER), "psp_layer_at: no input");
  hold(psp_selection_at(NULL, 0, 0).number == PSP_NO_SELECTION, "psp_selection_at: no input");
  hold(psp_alpha_at(NULL, 0, 0).number == PSP_NO_ALPHA && is_part(psp_alpha_name_at(NULL, 0, 0), PSP_NO_ALPHA), "psp_alpha_at: no input");
}

/* Fields stand where the library writes them, and what is not there has a number of its own. */
static void masks(const uint8_t *file, size_t length) {
  static uint8_t whole[2048];
  psp_selection_facts selection = psp_read_selection_facts(file, length, SIZE_MAX);
  psp_alpha_facts alpha = psp_read_alpha_facts(file, length, SIZE_MAX, 0);
  psp_part name;
  size_t at = length, alphas;
  hold(selection.number == PSP_NO_SELECTION && alpha.number == PSP_NO_ALPHA, "neither selection nor alpha channel");
  hold(is_part(psp_alpha_name(file, length, SIZE_MAX, 0), PSP_NO_ALPHA), "psp_alpha_name: no alpha channel");
  memcpy(whole, file, length);
  memcpy(whole + 116, "l", 2); /* the layer's name */
  at = area(whole, block(whole, at, 6, 36, 63), 3);
  at = block(whole, at, 7, 2, 2 + 2 * (14 + 319));
  whole[at] = 2;
  at += 2;
  for (alphas = 0; alphas < 2; alphas++) {
    at = block(whole, at, 8, 292, 319);
    whole[at] = (uint8_t)('a' + alphas);
    at = area(whole, at + 256, 4);
  }
  hold(is_listed(psp_count(whole, at, SIZE_MAX), PSP_ACCEPTED, at, 11), "a selection and two alpha channels");
  selection = psp_read_selection_facts(whole, at, SIZE_MAX);
  hold(selection.number == PSP_ACCEPTED && selection.selection.area.saved.right == 1 && selection.selection.area.border.bottom == 1 &&
           selection.selection.bitmaps == 1 && selection.selection.channels == 1,
       "psp_read_selection_facts: the fields");
  alpha = psp_read_alpha_facts(whole, at, SIZE_MAX, 1);
  hold(alpha.number == PSP_ACCEPTED && alpha.alpha.name[0] == 'b' && alpha.alpha.area.saved.right == 1 &&
           alpha.alpha.area.border.bottom == 1 && alpha.alpha.bitmaps == 1 && alpha.alpha.channels == 1,
       "psp_read_alpha_facts: the fields");
  name = psp_alpha_name(whole, at, SIZE_MAX, 1);
  hold(name.number == PSP_ACCEPTED && name.which == 0 && name.length == 1 && whole[name.start] == 'b', "psp_alpha_name: the name");
  hold(psp_read_alpha_facts(whole, at, SIZE_MAX, 2).number == PSP_NO_ALPHA, "psp_read_alpha_facts: no third");
  places(whole, at);
}

static void vectors(void) {
#ifdef __cplusplus
  std::vector<uint8_t> bytes;
  std::vector<uint32_t> table;
  hold(is_listed(psp_list(bytes.data(), bytes.size(), table.data(), table.size()), PSP_ENDS_TOO_SOON, 0, 0), "psp_list: empty vectors");
#endif
}

int main(int argc, char **argv) {
  static uint8_t file[521];
  FILE *open = argc == 2 ? fopen(argv[1], "rb") : NULL;
  if (open == NULL || fread(file, 1, sizeof file, open) != sizeof file) {
    printf("FAILED header FILE: the file cannot be read\n");
    return 1;
  }
  fclose(open);
  hold(psp_version() == PSP_VERSION, "psp_version: header and library are of one version");
  hold(psp_count(file, sizeof file, SIZE_MAX).number == PSP_ACCEPTED, "the file is accepted");
  listings(file, sizeof file);
  entries(file, sizeof file);
  asked(file, sizeof file);
  wrong_fields(file, sizeof file);
  planes(file, sizeof file);
  canvases();
  saved_tables(file, sizeof file);
  views(file, sizeof file);
  masks(file, sizeof file);
  vectors();
  return failed;
}
