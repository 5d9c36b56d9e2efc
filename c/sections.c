/* Builds a component section by section: a group of core types, producers, and names. Prints the
 * component, and each section as wenc_list reads it. */
#include <stdio.h>
#include <stdlib.h>

#include "wenc.h"

static void check(enum wenc_status status) {
  if (status != WENC_DONE) {
    fprintf(stderr, "refused: %s\n", wenc_status_text(status));
    exit(1);
  }
}

/* A struct type with the supertype 7, and a function type. */
static void add_core_types(wenc_handle *component) {
  static const wenc_pair field[] = {{WENC_CORE_I32 | WENC_CORE_MUTABLE, 0}};
  static const wenc_pair param[] = {{WENC_CORE_I64, 0}}, result[] = {{WENC_CORE_F32, 0}};
  static const wenc_subtype group[] = {{field, 1, NULL, 0, WENC_CORE_STRUCT, 7, true, false},
                                       {param, 1, result, 1, WENC_CORE_FUNCTION, 0, false, true}};
  wenc_handle section = {NULL};
  size_t len;
  check(wenc_section_new(&section, WENC_SECTION_CORE_TYPE));
  check(wenc_core_type_group(&section, NULL, group, 2, NULL));
  check(wenc_len(&section, &len));
  if (len != 1) exit(1);
  check(wenc_section(component, &section));
  wenc_free(&section);
}

static void add_names(wenc_handle *component) {
  static const wenc_index_name functions[] = {{WENC_TEXT("now"), 5}};
  wenc_handle names = {NULL};
  check(wenc_names_new(&names));
  check(wenc_names_component(&names, WENC_TEXT("c")));
  check(wenc_names_items(&names, WENC_FUNCS, functions, 1));
  check(wenc_section(component, &names));
  wenc_free(&names);
}

/* Prints the offset, the length and the id of each section, and the name of its first item. */
static void list(const uint8_t *bytes, size_t len) {
  wenc_handle listing = {NULL};
  wenc_listed_section section;
  wenc_listed_item item;
  size_t number;
  check(wenc_list(&listing, bytes, len, NULL));
  for (number = 0; wenc_section_at(&listing, number, &section) == WENC_DONE; number++) {
    check(wenc_item_at(&listing, number, 0, &item));
    printf("%lu %lu %lu", (unsigned long)section.place, (unsigned long)section.len,
           (unsigned long)section.id);
    if (item.name.name.at != NULL) printf(" %.*s", (int)item.name.name.len, item.name.name.at);
    putchar('\n');
  }
  wenc_free(&listing);
}

int main(void) {
  static const wenc_producer kit[] = {{WENC_TEXT("sdk"), WENC_TEXT("kit"), WENC_TEXT("1")}};
  wenc_handle component = {NULL};
  const uint8_t *bytes;
  size_t len, k;
  check(wenc_by_hand_new(&component));
  add_core_types(&component);
  check(wenc_producers(&component, kit, 1));
  add_names(&component);
  check(wenc_finish(&component, &bytes, &len));
  for (k = 0; k < len; k++) printf("%02x", bytes[k]);
  putchar('\n');
  list(bytes, len);
  wenc_free(&component);
  return 0;
}
