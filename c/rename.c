/* Renames an import of a component, and copies everything else byte for byte, except that the
 * number of each section's items and all sizes get their shortest form. Prints the component, in
 * which "b" became "renamed", in hexadecimal. */
#include <stdio.h>
#include <stdlib.h>
#include <string.h>

#include "wenc.h"

/* Imports of a resource type "a", and of another "b" with an interface that it implements; an
 * export of the latter; and a custom section "x". */
static const uint8_t component[] = {
    0x00, 0x61, 0x73, 0x6d, 0x0d, 0x00, 0x01, 0x00, 0x0a, 0x11, 0x02, 0x00, 0x01, 0x61, 0x03,
    0x01, 0x02, 0x01, 0x62, 0x01, 0x00, 0x03, 0x69, 0x3a, 0x6a, 0x03, 0x01, 0x0b, 0x07, 0x01,
    0x00, 0x01, 0x63, 0x03, 0x01, 0x00, 0x00, 0x03, 0x01, 0x78, 0x79};

static bool is(wenc_text one, wenc_text other) {
  return one.len == other.len && memcmp(one.at, other.at, one.len) == 0;
}

/* Adds the items of a component to another, with an import renamed. */
static enum wenc_status rename_import(const uint8_t *bytes, size_t len, wenc_text from,
                                      wenc_text to, wenc_handle *renamed) {
  wenc_walk walk;
  wenc_listed_item item;
  enum wenc_status status = wenc_walk_begin(&walk, bytes, len);
  while (status == WENC_DONE && (status = wenc_walk_section(&walk, NULL)) == WENC_DONE) {
    while (status == WENC_DONE && (status = wenc_walk_item(&walk, &item)) == WENC_DONE) {
      if (item.section == WENC_SECTION_IMPORT && is(item.name.name, from)) {
        item.name.name = to;
        status = wenc_import_named(renamed, &item.name, item.ref, item.of, NULL);
      } else {
        status = wenc_item(renamed, item.section, NULL, bytes + item.place, item.len, NULL);
      }
    }
    if (status == WENC_END) status = WENC_DONE;
  }
  return status == WENC_END ? WENC_DONE : status;
}

int main(void) {
  static const wenc_text from = {WENC_TEXT("b")}, to = {WENC_TEXT("renamed")};
  wenc_handle renamed = {NULL};
  const uint8_t *bytes;
  size_t len, k;
  enum wenc_status status = wenc_new(&renamed);
  if (status == WENC_DONE)
    status = rename_import(component, sizeof component, from, to, &renamed);
  if (status == WENC_DONE) status = wenc_finish(&renamed, &bytes, &len);
  if (status != WENC_DONE) {
    fprintf(stderr, "rename: %s\n", wenc_status_text(status));
    return 1;
  }
  for (k = 0; k < len; k++) printf("%02x", bytes[k]);
  putchar('\n');
  wenc_free(&renamed);
  return 0;
}
