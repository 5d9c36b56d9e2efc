/* Walks over a component, and prints its sections and items with their byte offsets, and its debug
 * names. Where an item, a section or names can't be read, prints why, and continues after the
 * section. Nothing is allocated. */
#include <stdio.h>
#include <stdlib.h>

#include "wenc.h"

/* A function type; backpressure.inc, followed by an unknown builtin; an unknown section; an import,
 * an alias of its export, and an export; and debug names, with a subsection without a size. */
static const uint8_t component[] = {
    0x00, 0x61, 0x73, 0x6d, 0x0d, 0x00, 0x01, 0x00, 0x07, 0x05, 0x01, 0x40, 0x00, 0x01, 0x00, 0x08,
    0x04, 0x02, 0x24, 0xff, 0x00, 0x0c, 0x01, 0x07, 0x0a, 0x06, 0x01, 0x00, 0x01, 0x69, 0x05, 0x00,
    0x06, 0x07, 0x01, 0x01, 0x00, 0x00, 0x02, 0x66, 0x67, 0x0b, 0x07, 0x01, 0x00, 0x01, 0x65, 0x01,
    0x00, 0x00, 0x00, 0x1c, 0x0e, 0x63, 0x6f, 0x6d, 0x70, 0x6f, 0x6e, 0x65, 0x6e, 0x74, 0x2d, 0x6e,
    0x61, 0x6d, 0x65, 0x00, 0x02, 0x01, 0x63, 0x01, 0x06, 0x01, 0x01, 0x00, 0x02, 0x66, 0x6e, 0x01};

static unsigned long number(size_t size) { return (unsigned long)size; }

static void print_text(const char *before, wenc_text text) {
  if (text.at != NULL) printf("%s%.*s", before, (int)text.len, text.at);
}

/* Prints why the section at this byte offset can't be read. */
static void print_fault(const char *before, size_t section) {
  char text[200];
  wenc_fault_text(component, sizeof component, section, text, sizeof text);
  printf("%s%s\n", before, text);
}

static void print_names(const wenc_listed_item *item) {
  char text[200];
  wenc_names_walk names;
  wenc_debug_name name;
  enum wenc_status status;
  if (wenc_walk_names(&names, item) != WENC_DONE) return;
  while ((status = wenc_walk_name(&names, &name)) == WENC_DONE) {
    printf("    space %u index %lu", (unsigned)name.space, (unsigned long)name.index);
    print_text(" is ", name.name);
    putchar('\n');
  }
  if (status != WENC_END) {
    wenc_item_fault_text(item->section, component + item->place, item->len, text, sizeof text);
    printf("    in the item at %#lx: %s\n", number(item->place), text);
  }
}

static void print_items(wenc_walk *walk, size_t section) {
  /* The number of indices in each space, and in none. */
  static unsigned long indices[WENC_SPACES + 1];
  wenc_listed_item item;
  enum wenc_status status;
  while ((status = wenc_walk_item(walk, &item)) == WENC_DONE) {
    printf("  %#lx..%#lx space %u index %lu", number(item.place), number(item.place + item.len),
           (unsigned)item.space, indices[item.space]);
    print_text(" name ", item.name.name);
    if (item.ref != WENC_REF_NONE) printf(" of type %u %lu", item.ref, (unsigned long)item.of);
    if (item.alias == WENC_ALIAS_EXPORT) printf(" of instance %lu", (unsigned long)item.item);
    if (item.section == WENC_SECTION_EXPORT) printf(" is %lu", (unsigned long)item.item);
    putchar('\n');
    indices[item.space] += item.indices;
    print_names(&item);
  }
  if (status != WENC_END) print_fault("  ", section);
}

int main(void) {
  wenc_walk walk;
  wenc_listed_section section;
  enum wenc_status status = wenc_walk_begin(&walk, component, sizeof component);
  while (status == WENC_DONE) {
    status = wenc_walk_section(&walk, &section);
    if (status == WENC_BAD_SECTION || status == WENC_BAD_ITEM) {
      print_fault("", walk.next_section);
      status = wenc_walk_skip(&walk, NULL);
    } else if (status == WENC_DONE) {
      printf("section %lu at %#lx, content at %#lx\n", (unsigned long)section.id,
             number(section.place), number(section.content));
      print_items(&walk, section.place);
    }
  }
  return status == WENC_END ? 0 : 1;
}
