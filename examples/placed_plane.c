/* From a layer to a placed plane: placed_plane FILE LAYER BITMAP CHANNEL. LAYER counts from 0, the bottom one; bitmap and channel are
 * those of psp_entry. */
#include <psp.h>
#include <stdio.h>
#include <stdlib.h>

enum { CHANNEL_BLOCK = 5, IMAGE = 0, USER_MASK = 2 };

static int refused(const char *what, uint32_t number, size_t place) {
  fprintf(stderr, "%s: refused, %u at %zu\n", what, (unsigned)number, place);
  return 1;
}

static int stop(const char *why) {
  fprintf(stderr, "%s\n", why);
  return 1;
}

/* Reads a file into memory that grows as the file needs it; one byte over the limit is enough to be refused. */
static uint8_t *contents(FILE *file, size_t *length) {
  const size_t most = (size_t)PSP_INPUT_LIMIT + 1;
  size_t room = 65536;
  uint8_t *bytes = malloc(room);
  *length = 0;
  while (bytes != NULL) {
    *length += fread(bytes + *length, 1, room - *length, file);
    if (*length < room || room == most) break;
    room = room < most / 2 ? 2 * room : most;
    uint8_t *grown = realloc(bytes, room);
    if (grown == NULL) free(bytes);
    bytes = grown;
  }
  return bytes;
}

int main(int argc, char **argv) {
  if (argc != 5) return stop("placed_plane FILE LAYER BITMAP CHANNEL");
  FILE *file = fopen(argv[1], "rb");
  size_t length;
  uint8_t *input = file == NULL ? NULL : contents(file, &length);
  if (input == NULL) return stop("the file cannot be read");
  fclose(file);
  uint32_t k = (uint32_t)strtoul(argv[2], NULL, 10);
  uint32_t bitmap = (uint32_t)strtoul(argv[3], NULL, 10);
  uint32_t channel = (uint32_t)strtoul(argv[4], NULL, 10);

  /* List the file. The count says how much room the entries need. */
  size_t room = psp_count(input, length, SIZE_MAX).count;
  uint32_t *table = calloc(room + 1, PSP_ENTRY_NUMBERS * sizeof *table);
  psp_entry *entries = calloc(room + 1, sizeof *entries);
  if (table == NULL || entries == NULL) return stop("no memory");
  psp_listed listed = psp_list_records(input, length, table, room * PSP_ENTRY_NUMBERS, entries, room);
  if (listed.number != PSP_ACCEPTED) return refused("listing", listed.number, listed.place);

  /* Each of these lists the input again: ask once, not once a plane. */
  psp_image_chunk image = psp_read_image_facts(input, length, SIZE_MAX).image;
  psp_layer_facts layer = psp_read_layer_facts(input, length, SIZE_MAX, k);
  if (layer.number != PSP_ACCEPTED) return stop("no such layer");

  /* The layer's channels, and the one that is wanted. Bitmaps 3 and 4 are those of the selection and of alpha channels. */
  const psp_entry *wanted = NULL;
  for (const psp_entry *entry = entries; entry < entries + listed.count; entry++) {
    if (entry->skipped || entry->id != CHANNEL_BLOCK || entry->layer != k || entry->bitmap > USER_MASK) continue;
    printf("layer %u: bitmap %u channel %u\n", (unsigned)entry->layer, (unsigned)entry->bitmap, (unsigned)entry->channel);
    if (entry->bitmap == bitmap && entry->channel == channel) wanted = entry;
  }
  if (wanted == NULL) return stop("the layer has no such channel");
  if (wanted->bitmap == IMAGE && image.depth < 8) return stop("several pixels a byte: spread them before placing");

  /* Read its plane. */
  uint8_t *plane = malloc((size_t)wanted->plane + 1);
  if (plane == NULL) return stop("no memory");
  psp_plane read = psp_read_plane(input, length, wanted->start, wanted->stored, wanted->plane, image.compression, plane, wanted->plane);
  if (read.number != PSP_ACCEPTED) return refused("plane", read.number, read.place);
  printf("plane of %u by %u pixels, %zu bytes\n", (unsigned)wanted->width, (unsigned)wanted->height, read.bytes);

  /* Place it where the layer has it, on a black canvas of the image's size; the entry's row says whether rows are padded. */
  psp_rect saved = wanted->bitmap == USER_MASK ? layer.layer.mask.saved : layer.layer.image.saved;
  size_t pixels = (size_t)image.width * (size_t)image.height;
  uint8_t *canvas = calloc(pixels, 1);
  if (canvas == NULL) return stop("no memory");
  uint32_t number = psp_place((uint32_t)image.width, (uint32_t)image.height, canvas, pixels, saved, plane, read.bytes, wanted->row);
  if (number != PSP_ACCEPTED) return stop("the plane cannot be placed");
  size_t lit = 0;
  for (size_t at = 0; at < pixels; at++) lit += canvas[at] != 0;
  printf("placed at (%d,%d) on %d by %d: %zu pixels are not 0\n", (int)saved.left, (int)saved.top, (int)image.width, (int)image.height,
         lit);
  return 0;
}
