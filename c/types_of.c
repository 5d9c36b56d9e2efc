/* Prints the contents of the items of a component: the fields of a record type, the parameters of a
 * function type, the options of a lifted function, the arguments of instantiations, and the tools
 * that produced it. Nothing is allocated. */
#include <stdio.h>
#include <stdlib.h>

#include "wenc.h"

/* A record type with the fields x and y; the type of a function of it; a core instance and an
 * instance with an argument each; a function with options; and producers. */
static const uint8_t component[] = {
    0x00, 0x61, 0x73, 0x6d, 0x0d, 0x00, 0x01, 0x00, 0x07, 0x10, 0x02, 0x72, 0x02, 0x01, 0x78, 0x79,
    0x01, 0x79, 0x73, 0x40, 0x01, 0x01, 0x70, 0x00, 0x00, 0x73, 0x02, 0x0a, 0x01, 0x00, 0x00, 0x01,
    0x03, 0x65, 0x6e, 0x76, 0x12, 0x00, 0x05, 0x08, 0x01, 0x00, 0x00, 0x01, 0x01, 0x66, 0x01, 0x00,
    0x08, 0x09, 0x01, 0x00, 0x00, 0x00, 0x02, 0x00, 0x03, 0x00, 0x01, 0x00, 0x1f, 0x09, 0x70, 0x72,
    0x6f, 0x64, 0x75, 0x63, 0x65, 0x72, 0x73, 0x01, 0x08, 0x6c, 0x61, 0x6e, 0x67, 0x75, 0x61, 0x67,
    0x65, 0x01, 0x04, 0x52, 0x75, 0x73, 0x74, 0x04, 0x32, 0x30, 0x32, 0x34};

static void print_text(const char *before, wenc_text text, const char *after) {
  if (text.at != NULL) printf("%s%.*s%s", before, (int)text.len, text.at, after);
}

/* Prints a node on a line of its own, indented by its depth, and counts it. */
static bool print_node(void *context, const wenc_node *node) {
  unsigned long number = (unsigned long)node->number;
  ++*(unsigned long *)context;
  printf("%*s", 2 * (int)node->depth, "");
  print_text("", node->name, ": ");
  switch (node->kind) {
    case WENC_NODE_ABSENT: printf("none"); break;
    case WENC_NODE_PRESENT: printf("some"); break;
    case WENC_NODE_NUMBER: printf("%lu", number); break;
    case WENC_NODE_FLAG: printf(number ? "true" : "false"); break;
    case WENC_NODE_TEXT: print_text("\"", node->text, "\""); break;
    case WENC_NODE_BYTES: printf("%lu bytes", (unsigned long)node->len); break;
    case WENC_NODE_INDEX: printf("%lu of space %u", number, node->space); break;
    case WENC_NODE_LIST: printf("list of %lu", number); break;
    case WENC_NODE_TUPLE: printf("tuple"); break;
    default: print_text("", node->text, "");
  }
  if (node->len > 0) printf(" at %#lx", (unsigned long)node->place);
  putchar('\n');
  return true;
}

int main(void) {
  wenc_walk walk;
  wenc_listed_item item;
  unsigned long nodes = 0;
  enum wenc_status status = wenc_walk_begin(&walk, component, sizeof component);
  while (status == WENC_DONE && (status = wenc_walk_section(&walk, NULL)) == WENC_DONE) {
    while ((status = wenc_walk_item(&walk, &item)) == WENC_DONE) {
      if (wenc_walk_nodes(&walk, &item, print_node, &nodes) != WENC_DONE) return 1;
    }
    if (status == WENC_END) status = WENC_DONE;
  }
  printf("%lu nodes\n", nodes);
  return status == WENC_END ? 0 : 1;
}
