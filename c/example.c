/* Builds a component that imports a function, has a nested component and a core module, and exports
 * a function that it lifts from that module. Prints its bytes in hexadecimal, and its sections.
 *
 *     cargo build --profile c -p libwenc
 *     gcc -Wall -Wextra -Werror -o example c/example.c target/c/libwenc.a && ./example */
#include <stdio.h>
#include <stdlib.h>

#include "wenc.h"

/* An array and its length. */
#define ALL(array) array, sizeof(array) / sizeof(array)[0]

/* The core module that exports the function "run", without parameters and results. */
static const uint8_t module[] = {0x00, 0x61, 0x73, 0x6d, 0x01, 0x00, 0x00, 0x00, 0x01, 0x04, 0x01,
                                 0x60, 0x00, 0x00, 0x03, 0x02, 0x01, 0x00, 0x07, 0x07, 0x01, 0x03,
                                 0x72, 0x75, 0x6e, 0x00, 0x00, 0x0a, 0x04, 0x01, 0x02, 0x00, 0x0b};

static void check(enum wenc_status status) {
  if (status != WENC_DONE) {
    fprintf(stderr, "refused: %s\n", wenc_status_text(status));
    exit(1);
  }
}

/* A component that imports a type, a point, and a function from it to a text. */
static void build_nested(wenc_handle *builder) {
  static const wenc_part fields[] = {{WENC_TEXT("x"), WENC_REF_PRIMITIVE, WENC_S32},
                                     {WENC_TEXT("y"), WENC_REF_PRIMITIVE, WENC_S32}};
  static const wenc_text point = {WENC_TEXT("point")};
  wenc_part params[] = {{WENC_TEXT("at"), WENC_REF_VALUE, 0}};
  uint32_t record, ty;
  check(wenc_type_record(builder, &point, ALL(fields), &record));
  check(wenc_import(builder, WENC_TEXT("point"), WENC_REF_TYPE, record, &params[0].number));
  check(wenc_type_function(builder, NULL, false, ALL(params), WENC_REF_PRIMITIVE,
                           WENC_STRING, &ty));
  check(wenc_import(builder, WENC_TEXT("f"), WENC_REF_FUNC, ty, NULL));
}

static void build(wenc_handle *builder) {
  uint32_t index, ty, instance, run;
  wenc_part exports[] = {{WENC_TEXT("run"), WENC_CORE_FUNC, 0},
                         {WENC_TEXT("inc"), WENC_CORE_FUNC, 0}};
  wenc_handle nested = {NULL};

  check(wenc_new(&nested));
  build_nested(&nested);
  check(wenc_component(builder, NULL, &nested, NULL));

  /* A function without parameters and results is imported. */
  check(wenc_type_function(builder, NULL, false, NULL, 0, WENC_REF_NONE, 0, &ty));
  check(wenc_import(builder, WENC_TEXT("log"), WENC_REF_FUNC, ty, NULL));

  /* The core module is instantiated without arguments. */
  check(wenc_core_module(builder, NULL, module, sizeof module, &index));
  check(wenc_core_instantiate(builder, NULL, index, NULL, 0, &instance));

  /* Its function and `backpressure.inc` are exported by another core instance. */
  check(wenc_alias_core_export(builder, NULL, instance, WENC_CORE_FUNC, WENC_TEXT("run"),
                               &exports[0].number));
  check(wenc_builtin(builder, WENC_BACKPRESSURE_INC, 0, 0, &exports[1].number));
  check(wenc_core_exports(builder, NULL, ALL(exports), NULL));

  /* Its function is lifted, without options, and exported. */
  check(wenc_lift(builder, NULL, exports[0].number, ty, NULL, 0, &run));
  check(wenc_export(builder, WENC_TEXT("run"), WENC_FUNC, run, WENC_REF_NONE, 0, NULL));
  check(wenc_append_names(builder));
}

static void list(const uint8_t *bytes, size_t len) {
  wenc_handle listing = {NULL};
  wenc_listed_section section;
  size_t number, k;
  uint32_t functions;
  check(wenc_list(&listing, bytes, len, NULL));
  check(wenc_len(&listing, &number));
  for (k = 0; k < number; k++) {
    check(wenc_section_at(&listing, k, &section));
    printf("%lu %lu at %lu\n", (unsigned long)section.id, (unsigned long)section.items,
           (unsigned long)section.place);
  }
  check(wenc_count(&listing, WENC_FUNCS, &functions));
  printf("%lu functions\n", (unsigned long)functions);
  wenc_free(&listing);
}

int main(void) {
  wenc_handle builder = {NULL};
  const uint8_t *bytes;
  size_t len, k;

  if (wenc_version() != WENC_VERSION) return 1;
  check(wenc_new(&builder));
  build(&builder);
  check(wenc_finish(&builder, &bytes, &len));
  for (k = 0; k < len; k++) printf("%02x", bytes[k]);
  putchar('\n');
  list(bytes, len);
  wenc_free(&builder);
  return 0;
}
